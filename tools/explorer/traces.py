"""Lists of outcomes and traces, line by line: what a list allows, and what of a trace it lacks."""
import re

SAYS_NOTHING = ["unfinished", "refused 12 OutOfMemory"]


def table_of(lines):
    """The lines of a list as a table: the outcomes by the words before the colon."""
    return {head: rest.split(" | ") for head, rest in (line.split(": ", 1) for line in lines)}


def is_end(line):
    """Whether a line of a trace closes a rank."""
    return re.match(r"\d+ end: ", line)


def answers_of(trace):
    """The words before the colon of each line of a trace that tells of a step, and the answer behind it."""
    return [line.split(": ", 1) for line in trace if not is_end(line)]


def says_nothing(answers):
    """Whether a trace says nothing of a list: a step was given up, or refused memory."""
    return any(answer in SAYS_NOTHING for _, answer in answers)


def traces_in(text):
    """The distinct traces that the program wrote, each with the number of runs that gave it."""
    traces = [(1, [])]
    for line in text.splitlines():
        head = re.fullmatch(r"(\d+) of \d+ runs:", line)
        if head:
            traces.append((int(head[1]), []))
        else:
            traces[-1][1].append(line)
    return [(runs, trace) for runs, trace in traces if trace]


def lacking(table, answers):
    """The answers of a trace that a list lacks, as lines."""
    return [f"{head}: {answer}" for head, answer in answers if answer not in table.get(head, [])]
