"""What the prover says of functions with other bodies, told by one of three words.

Refused: a goal of the function isn't proved, or an answer of its proof fails. Passed: all its goals are proved, if what it calls is. Not judged:
its proof names what the body took away, the search tried not all goals, the check came to no end, or the right body of its shape isn't passed."""
import re

from kit.edits import NOT_JUDGED, PASSED, REFUSED

# What the prover says where a proof names what a body took away.
NAME_GONE = re.compile(r"has no field|is not in scope|has no `|was not admitted|was not checked")
# What it says of a function of which all is proved but, at most, what it calls, which was left unproved.
PROVED = re.compile(r"fn [^ ]*: (proved\b.*|no proof: it (calls|passes) [^;]*(; it (calls|passes) [^;]*)*)$")


def messages(said):
    """The prover's messages, each with the lines that go on with it."""
    return re.split(r"\n(?=\S)", said)


def names_of(body):
    """A pattern of how the prover names a function with a body, and its closures."""
    inside = body.folders()[1].replace("/", "::")
    return rf"{body.crate}::({re.escape(body.called)}|{re.escape(inside)}::[^:]*)"


def lines_of(body, told):
    """The line of the function with a body, first, and those of its closures."""
    lines = [it.split("\n")[0] for it in told if re.match(rf"fn {names_of(body)}: ", it)]
    return sorted(lines, key=lambda line: not line.startswith(f"fn {body.crate}::{body.called}: "))


def answers_of(body, told):
    """The answers of its proof, and of its closures', that fail, with the messages of these."""
    path, inside = map(re.escape, body.folders())
    found = ((re.match(rf"(?:\./)?proofs/(?:{path}|{inside}/\w+)/\w+\.antt:\d+:\d+: error: (`[^`]*`|.*)", it), it) for it in told)
    return [(at[1], message) for at, message in found if at]


def failed_goals(body, told):
    """What of the function isn't proved, its closures' part too, but for what only names something that the body took away."""
    goals = [goal for line in lines_of(body, told) for goal in re.findall(r"`search` did not prove (`[^;]*`)", line)]
    return goals + [goal for goal, message in answers_of(body, told) if goal.startswith("`") and not NAME_GONE.search(message)]


def unjudged(body, said, told):
    """Why the prover neither refused the body nor passed it."""
    if not re.search(r"^only=", said, re.M):
        return "the check came to no end: " + next((it for it in told if "error" in it), said[-300:]).strip()[:300]
    gone = next((message for _, message in answers_of(body, told) if NAME_GONE.search(message)), None)
    if gone:
        return "its proof names what went: " + gone.split("error: ", 1)[1].split("\n")[0][:250]
    return next(iter(lines_of(body, told)), "the prover names no such function")[:300]


def verdict(body, said):
    """The word on one body, and why."""
    told = messages(said)
    goals, lines = failed_goals(body, told), lines_of(body, told)
    if lines and goals and not re.match(r"fn [^ ]*: proved", lines[0]):
        return REFUSED, ", ".join(dict.fromkeys(goals))
    is_tried = not re.search(rf"`search` has not tried the goals of `{names_of(body)}`", said)
    if lines and all(map(PROVED.match, lines)) and not answers_of(body, told) and is_tried:
        return PASSED, "all its goals are proved"
    return NOT_JUDGED, unjudged(body, said, told)


def with_controls(found):
    """The bodies that aren't controls with the words on them. Where the right body of a shape isn't passed, a refusal says nothing."""
    words = {body: (word, why) for body, word, why in found}
    controls = {body.control for body in words if body.control}
    for body, (word, why) in words.items():
        if body in controls:
            continue
        if word == REFUSED and body.control and words[body.control][0] != PASSED:
            word, why = NOT_JUDGED, f"the right body of this shape is {words[body.control][0]}: {words[body.control][1]}"
        yield body, word, why
