"""What a job asks only before the steps of a name, by the key `before` of what a step expects, or of a row of `never`."""


def parts(asked, key):
    """The list that is asked for, and the name before whose steps all stops have to lie; no name where it is a list alone."""
    return (asked[key], asked["before"]) if isinstance(asked, dict) else (asked, None)


def lies_before(number, is_inside, named):
    """Whether a stop before a step of this number, or inside it, lies before its rank's step of the name, if that is there."""
    return named is not None and (number < named if is_inside else number <= named)


def stops_of(place):
    """The rank, the number of the step, and whether the rank dies inside it, of each stop of a place."""
    for stop in [] if place == "-" else place.split("+"):
        rank, number = map(int, stop.rstrip("*").split("."))
        yield rank, number, stop.endswith("*")


def holds(steps, place, name):
    """Whether what is asked only before the steps of a name, if there is one, holds at a place: all stops lie before it, those of the place and the
    job's own. Of each step the rank, the number, the op and the name are given."""
    named = {rank: number for rank, number, _, own in steps if own == name}
    stops = [*stops_of(place), *((rank, number, False) for rank, number, op, _ in steps if op == "stop")]
    return name is None or all(lies_before(number, is_inside, named.get(rank)) for rank, number, is_inside in stops)
