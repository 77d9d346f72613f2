"""Lists of outcomes at the places of a job: what the program tells of each step and where, and what the explorer does."""
import collections
import json
import subprocess

from explorer import front

SECONDS = 600
NEVER_ENDS, NOT_REACHED = "never ends", "not reached"


def answered(asked, text, *words):
    """The status and the text that the program gives for a job."""
    ran = subprocess.run([asked.program, *words], input=text, stdout=subprocess.PIPE, stderr=subprocess.DEVNULL, timeout=SECONDS,
                         universal_newlines=True, check=False)
    return ran.returncode, ran.stdout


def is_past(objects):
    """Whether the program met too many states at some place, by its objects: then what it lists isn't that of all places."""
    return any(line.startswith('{"more_states_than"') for line in objects.splitlines())


def stops_of(place):
    """The step before which each rank stops at a place, by its text; and the steps that may be given up, as `R.K`. A rank that dies inside
    a step stops behind it."""
    stops, left = {}, []
    for stop in [] if place == "-" else place.split("+"):
        rank, at = map(int, stop.rstrip("*").split("."))
        stops[rank] = at + stop.endswith("*")
        left += [stop.rstrip("*")] if stop.endswith("*") else []
    return stops, left


def table_of(lines, stops):
    """What lines of the explorer tell of each step beside these stops, by the numbers of the file."""
    table = {}
    for line in lines:
        head, endings = line.split(": ", 1)
        rank, number = map(int, head.split()[:2])
        at = stops.get(rank)
        if number != at:
            table[rank, number - (at is not None and at < number)] = endings.split(" | ")
    return table


def union(tables):
    """What is told of each step, and at which places, by the tables of all of them."""
    steps = collections.defaultdict(lambda: collections.defaultdict(list))
    for place, table in tables:
        for step, endings in table.items():
            for ending in endings:
                if ending != NOT_REACHED:
                    steps[step][ending].append(place)
    return {step: dict(endings) for step, endings in steps.items() if endings}


def told_in_json(text):
    """What is told of each step, and at which places, by the objects of the program."""
    steps = {}
    for line in text.splitlines():
        told = json.loads(line)
        if "answers" not in told:
            continue
        endings = {one["answer"]: one["at"] for one in told["answers"]}
        if told["never_ends_at"]:
            endings[NEVER_ENDS] = told["never_ends_at"]
        if endings:
            steps[told["rank"], told["step"]] = endings
    return steps
