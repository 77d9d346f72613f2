"""Bad jobs of two ranks, and what the program says of them: of their keys, their steps and the keys of these. tools/gate/bad-jobs asks the program; what
steps ask for stands in refused_clauses.py."""
from warned_jobs import FIRST

HEAD = "ranks = 2\ncapacity = 4\nturns = 10\n"
OPS = "the ops are send, recv, wait, probe, mrecv, cancel, failed, ack, revoke, dup, shrink, agree, note, stop"
NO_COLLECTIVES = "a job has no collectives but 'agree' and 'shrink': write it by 'send', 'recv' and 'wait' (docs/LIMITS.md)"
OF_BLOCKS = "a block has steps, and repeat or on_error or both"
ASKING = '{ rank = 0, op = "failed", if = { step = "x", is = ["ranks"] } }'
OR_ANY = ", or left out for any"


def step(keys):
    """A job of two ranks whose one step, by the keys behind its rank, stands from line 4 on: the rank in line 5, each key in its line."""
    return HEAD + "[[step]]\nrank = 0\n" + "".join(f"{key}\n" for key in keys.split("; ")) if keys else HEAD + "[[step]]\nrank = 0\n"


def line(steps):
    """A job of two ranks with these steps in line 4, parted by semicolons, each beginning in the column after its bracket."""
    return HEAD + "step = [" + ", ".join("{" + it.strip() + "}" for it in steps.split(";")) + "]\n"


def integer(key, value, least, most):
    return f"key '{key}' is {value}, and has to be an integer from {least} to {most}"


# What the job is, its text, what follows 'job refused: ' on standard output, and the lines on standard error.
JOBS = [
    # No TOML: line and column.
    ("a text that isn't closed", HEAD + 'note = "ab\n', "J1", ["line 4, column 11: this is no TOML: invalid string"]),
    ("a key twice", "ranks = 2\n" + HEAD, "J1", ["line 2, column 1: this is no TOML: duplicate key, at 'ranks = 2'"]),
    ("two steps below one head", step('op = "recv"; rank = 1'), "J1", [
        "line 7, column 1: this is no TOML: duplicate key, at 'rank = 1' (each step begins with a [[step]] of its own)",
    ]),
    ("[step] twice", HEAD + '[step]\nrank = 0\nop = "stop"\n' * 2, "J1", [
        "line 7, column 1: this is no TOML: duplicate key, at '[step]' (each step begins with a [[step]] of its own)",
    ]),
    ("an op without quotes", step("op = recv"), "J1", ["line 6, column 6: this is no TOML: invalid value, expected a string .. , at 'recv'"]),
    ("a byte of Latin-1", b"ranks = 2\n# caf\xe9\n", "J1", ["line 2, column 6: this byte is no UTF-8; save the file as UTF-8"]),
    ("a key without a value", "ranks = \n", "J1", ["line 1, column 9: this is no TOML: invalid value, expected a string, number"]),
    # Too much.
    ("257 steps", HEAD + '[[step]]\nrank = 0\nop = "stop"\n' * 257, "J6", ["line 772, column 1: there are 257 steps, and 256 are the most"]),
    ("a byte too many", "#" * 1_048_576 + "\n", "J6", ["the text has more than 1048576 bytes"]),
    # The keys of the job.
    ("an empty file", "", "J2", ["the job is empty; where no file is named .. it is read from standard input"]),
    ("a comment alone", "# nothing\n", "J2", [
        "key 'ranks' is missing; it has to be an integer from 1 to 8",
        "key 'capacity' is missing; it has to be an integer from 1 to 64",
        "key 'turns' is missing; it has to be an integer from 1 to 10000000",
    ]),
    ("no ranks", "capacity = 4\nturns = 10\n", "J2", ["key 'ranks' is missing; it has to be an integer from 1 to 8"]),
    ("ranks in quotes", 'ranks = "2"\ncapacity = 4\nturns = 10\n', "J2", ["line 1, column 1: " + integer("ranks", 'the text "2"', 1, 8)]),
    ("ranks that are no integer", "ranks = 1.0\ncapacity = 4\nturns = 10\n", "J2", [f"line 1, column 1: {integer('ranks', 'the float 1.0', 1, 8)}"]),
    ("ranks that are true", "ranks = true\ncapacity = 4\nturns = 10\n", "J2", [f"line 1, column 1: {integer('ranks', 'the boolean true', 1, 8)}"]),
    ("nine ranks", "ranks = 9\ncapacity = 4\nturns = 10\n", "J4", [f"line 1, column 1: {integer('ranks', 9, 1, 8)}"]),
    ("no rank at all", "ranks = 0\ncapacity = 4\nturns = 10\n", "J4", [f"line 1, column 1: {integer('ranks', 0, 1, 8)}"]),
    ("no room", "turns = 10\nranks = 8\n  capacity = 0\n", "J4", [f"line 3, column 3: {integer('capacity', 0, 1, 64)}"]),
    ("too much room", "ranks = 8\ncapacity = 65\nturns = 10\n", "J4", [f"line 2, column 1: {integer('capacity', 65, 1, 64)}"]),
    ("too many turns", "ranks = 1\ncapacity = 1\nturns = 10000001\n", "J4", [f"line 3, column 1: {integer('turns', 10000001, 1, 10000000)}"]),
    ("turns below the first step", 'ranks = 2\ncapacity = 4\n[[step]]\nrank = 0\nop = "stop"\nturns = 10\n', "J2", [
        "line 6, column 1: key 'turns' is missing above the first step, and stands in a step here; move it up",
        f"line 6, column 1: {FIRST}key 'turns' is unknown; stop has op, rank",
    ]),
    ("an unknown key of the job", HEAD + "note = 1\n", "J3", ["line 4, column 1: key 'note' is unknown; a job has ranks, capacity, turns, step, never"]),
    ("missing is told before unknown, and this before a range", "ranks = 9\nnote = 1\ncapacity = 1\n", "J2", [
        "key 'turns' is missing; it has to be", "line 2, column 1: key 'note' is unknown; a job has", f"line 1, column 1: {integer('ranks', 9, 1, 8)}",
    ]),
    ("[step]", HEAD + '[step]\nrank = 0\nop = "stop"\n', "J2", [
        "line 4, column 1: key 'step' is one table, and has to be an array of tables; write [[step]] above each step",
    ]),
    ("a step that is a text", HEAD + 'step = "x"\n', "J2", ["line 4, column 1: key 'step' is the text \"x\", and has to be an array of tables"]),
    ("a step that is a number", HEAD + 'step = [{ rank = 0, op = "stop" }, 7]\n', "J2", [
        "line 4, column 36: step 1 of the file: the step is a TOML integer, and has to be a table",
    ]),
    ("[[steps]]", HEAD + '[[steps]]\nrank = 0\nop = "stop"\n', "J3", [
        "line 4, column 1: key 'steps' is unknown; did you mean 'step'? a job has ranks, capacity, turns, step",
    ]),
    # Steps for several ranks.
    ("a fault of a step for several ranks", line('rank = "all", op = "send", to = 9, tag = 0, body = ""'), "J4 step 0", [f"line 4, column 37: {FIRST}{integer('to', 9, 0, 7)}, or \"me\""]),
    ("a list of no ranks", line('rank = [], op = "stop"'), "J2 step 0", [
        "line 4, column 10: step 0 of the file: key 'rank' is an array, and has to be an integer from 0 to 1, a list of them, or \"all\"",
    ]),
    ("a list with a rank out of range", line('rank = 0, op = "dup"; rank = [0, 2], op = "dup"'), "J4 step 1", [f"line 4, column 34: step 1 of the file: {integer('rank', 2, 0, 1)}"]),
    ("a neighbour by another word", line('rank = "all", op = "recv", from = "next"'), "J2 step 0", [f"line 4, column 37: {FIRST}" + integer("from", 'the text "next"', 0, 7)]),
    ("a rank twice, with a name", line('rank = [1, 1], op = "recv", name = "x"'), "J4 step 0", ["line 4, column 38: rank 1 step 1 'x' (step 0 of the file): .. 'x'"]),
    # Blocks of steps.
    *[(f"a block with {keys}", line(f'{keys}, steps = [{{ rank = 0, op = "dup" }}]'), "J2 step 0", [f"line 4, column {9 if 'for' in keys else 10}: step 0 of the file: {fault}"]) for keys, fault in (
        ("repeat = 0", "key 'repeat' is 0, and has to be an integer from 1 to 256"),
        ("repeat = 257", "key 'repeat' is 257, and has to be an integer from 1 to 256"),
        ('repeat = "2"', "key 'repeat' is the text \"2\", and has to be an integer from 1 to 256"),
        ("on_error = 1", "key 'on_error' is the integer 1, and has to be the name of a later step in quotes"),
        ('on_error = "end"', "key 'on_error' is 'end', and no step of the file behind the block has this name"),
        ("for = 2", f"key 'for' is unknown; {OF_BLOCKS}"),
    )],
    ("a block with a rank", line('repeat = 2, rank = 0, steps = [{ rank = 0, op = "dup" }]'), "J2 step 0", [f"line 4, column 9: {FIRST}key 'rank' is unknown; {OF_BLOCKS}"]),
    ("a block without steps", line("repeat = 2, steps = []"), "J2 step 0", ["line 4, column 9: step 0 of the file: a block has 'steps', a list of one or more"]),
    ("a block that isn't written out", line('steps = [{ rank = 0, op = "dup" }]'), "J2 step 0", ["line 4, column 9: step 0 of the file: a block has 'repeat' .. or 'on_error'"]),
    ("a block in a block", line('repeat = 2, steps = [{ repeat = 2, steps = [{ rank = 0, op = "dup" }] }]'), "J2 step 0", ["line 4, column 9: step 0 of the file: a block stands in a block here"]),
    ("a block that leads past another", line('on_error = "x", steps = [{ rank = 0, op = "dup" }]; on_error = "y", steps = [{ rank = 0, op = "dup" }]; rank = 0, op = "dup", name = "x"; rank = 0, op = "dup", name = "y"'),
     "J2 step 0", ["line 4, column 10: step 0 of the file: key 'on_error' is 'x', and another block with an 'on_error' stands before the step of this name"]),
    ("16 steps with an if of their own in a block", line('on_error = "end", steps = [{ rank = 0, op = "failed", name = "x" }, ' + ", ".join([ASKING] * 16) + ']; rank = 0, op = "failed", name = "end"'), "J4 step 0", [
        "line 4, column 9: rank 0 step 16 (step 0 of the file): by 'on_error' 17 conditions have to hold together here: those of its own 'if', and one for each step before it, back to the last one without an 'if'; 16 are the most, so at most 15 steps with an 'if'",
    ]),
    ("a fault in a block", line('rank = 1, op = "dup"; repeat = 2, steps = [{ rank = 0, op = "recv", name = "x" }, { rank = 0, op = "wait", req = "y" }]'), "J4 step 1", [
        "line 4, column 33: rank 0 step 1 (step 1 of the file): key 'req' is 'y', and no earlier step of its rank has this name",
    ]),
    ("a name without its iteration", line('repeat = 1, steps = [{ rank = 0, op = "recv", name = "x" }]; rank = 0, op = "wait", req = "x"'), "J4 step 1", [
        "rank 0 step 1 (step 1 of the file): key 'req' is 'x', and no earlier step of its rank has this name",
    ]),
    ("257 steps in iterations", line('repeat = 129, steps = [{ rank = "all", op = "stop" }]'), "J6", ["line 4, column 1: there are more than 256 steps, one for each rank and each iteration"]),
    ("258 steps for two ranks each", line("; ".join(['rank = "all", op = "stop"'] * 129)), "J6", ["line 4, column 1: there are more than 256 steps, one for each rank and each iteration"]),
    # The op of a step.
    ("an unknown op", step('op = "bcast"'), "J5 step 0", [f"line 6, column 1: {FIRST}op 'bcast' is unknown; {NO_COLLECTIVES}; {OPS}"]),
    ("an op that isn't there", step('op = "split"'), "J5 step 0", [f"line 6, column 1: {FIRST}op 'split' is unknown; {OPS}"]),
    ("an op in capitals", step('op = "Send"; to = 1; tag = 5; body = ""'), "J5 step 0", [
        f"line 6, column 1: {FIRST}op 'Send' is unknown; did you mean 'send'? {OPS}",
    ]),
    ("a misspelt op", step('op = "shirnk"'), "J5 step 0", [f"line 6, column 1: {FIRST}op 'shirnk' is unknown; did you mean 'shrink'? {OPS}"]),
    ("an op by the name of its answer", step('op = "agreed"; flag = 1'), "J5 step 0", [
        f"line 6, column 1: {FIRST}op 'agreed' is unknown; did you mean 'agree'? {OPS}",
    ]),
    ("an op by MPI's name", step('op = "improbe"'), "J5 step 0", [f"line 6, column 1: {FIRST}op 'improbe' is unknown; did you mean 'probe'? {OPS}"]),
    ("no op", step("to = 1"), "J2 step 0", [f"line 4, column 1: {FIRST}key 'op' is missing; {OPS}"]),
    ("an op that is no text", step("op = [1]"), "J2 step 0", [f"line 6, column 1: {FIRST}key 'op' is an array, and has to be a text in quotes"]),
    ("the op is told before the rank", HEAD + '[[step]]\nop = "bcast"\n', "J5 step 0", [
        "line 5, column 1: step 0 of the file: op 'bcast' is unknown; .. the ops are",
        "line 4, column 1: step 0 of the file: key 'rank' is missing; it has to be an integer from 0 to 1",
    ]),
    # The keys of a step.
    ("no tag", step('op = "send"; to = 1; body = ""'), "J2 step 0", [
        f"line 4, column 1: {FIRST}key 'tag' is missing; it has to be an integer from 0 to 32767",
    ]),
    ("no body", step('op = "send"; to = 1; tag = 5'), "J2 step 0", [f"line 4, column 1: {FIRST}key 'body' is missing; it has to be a text in quotes"]),
    ("no req", step('op = "mrecv"; room = 4'), "J2 step 0", [f"line 4, column 1: {FIRST}key 'req' is missing; it has to be an integer from 0 to 255"]),
    ("the room of a probe", step('op = "probe"; room = 4'), "J3 step 0", [
        f"line 7, column 1: {FIRST}key 'room' is unknown; did you mean 'from'? probe has op, rank, from, tag, comm",
    ]),
    ("from any", step('op = "recv"; from = "any"'), "J2 step 0", ["line 7, column 1: " + FIRST + integer("from", 'the text "any"', 0, 7) + " .. " + OR_ANY[2:]]),
    ("a float as req", step('op = "wait"; req = 0.0'), "J2 step 0", [f"line 7, column 1: {FIRST}{integer('req', 'the float 0.0', 0, 255)}"]),
    ("a number as body", step('op = "send"; to = 1; tag = 5; body = 42'), "J2 step 0", [
        f"line 9, column 1: {FIRST}key 'body' is the integer 42, and has to be a text in quotes",
    ]),
    ("true as to", step('op = "send"; to = true; tag = 5; body = ""'), "J2 step 0", [f"line 7, column 1: {FIRST}{integer('to', 'the boolean true', 0, 7)}"]),
    ("a wrong kind is told before an unknown key", step('op = "send"; to = 1; tag = "5"; body = ""; x = 1'), "J2 step 0", [
        "line 8, column 1: " + FIRST + integer("tag", 'the text "5"', 0, 32767), f"line 10, column 1: {FIRST}key 'x' is unknown; send has",
    ]),
    ("rank 2 of 2", HEAD + '[[step]]\nrank = 2\nop = "stop"\n', "J4 step 0", [f"line 5, column 1: step 0 of the file: {integer('rank', 2, 0, 1)}"]),
    ("to past all ranks", step('op = "send"; to = 8; tag = 5; body = ""'), "J4 step 0", [f"line 7, column 1: {FIRST}{integer('to', 8, 0, 7)}"]),
    ("from below 0", step('op = "recv"; from = -1'), "J4 step 0", [f"line 7, column 1: {FIRST}{integer('from', -1, 0, 7)} .. {OR_ANY[2:]}"]),
    ("a tag below 0", step('op = "recv"; tag = -1'), "J4 step 0", [f"line 7, column 1: {FIRST}{integer('tag', -1, 0, 32767)}{OR_ANY}"]),
    ("a communicator past the last", step('op = "dup"; comm = 63'), "J4 step 0", [f"line 7, column 1: {FIRST}{integer('comm', 63, 0, 62)}"]),
    ("a req past all steps", line('rank = 0, op = "stop"; rank = 0, op = "wait", req = 256'), "J4 step 1", [
        f"line 4, column 58: rank 0 step 1 (step 1 of the file): {integer('req', 256, 0, 255)}",
    ]),
    ("form in place of from", line('rank = 0, op = "dup"; rank = 1, op = "recv", form = 0'), "J3 step 1", [
        "line 4, column 57: rank 1 step 0 (step 1 of the file): key 'form' is unknown; did you mean 'from'? recv has op, rank, from, tag, room, comm",
    ]),
    ("a communicator of a wait", step('op = "wait"; req = 0; comm = 0'), "J3 step 0", [f"line 8, column 1: {FIRST}key 'comm' is unknown; wait has op, rank, req"]),
    ("no flag", step('op = "agree"; comm = 0'), "J2 step 0", [
        f"line 4, column 1: {FIRST}key 'flag' is missing; it has to be an integer from 0 to 4294967295",
    ]),
    ("true as flag", step('op = "agree"; flag = true'), "J2 step 0", [f"line 7, column 1: {FIRST}{integer('flag', 'the boolean true', 0, 4294967295)}"]),
    ("a flag in quotes, and an unknown key beside it", step('op = "agree"; x = 1; flag = "1"'), "J2 step 0", [
        "line 8, column 1: " + FIRST + integer("flag", 'the text "1"', 0, 4294967295),
        f"line 7, column 1: {FIRST}key 'x' is unknown; agree has op, rank, flag, comm",
    ]),
    ("a flag below 0", step('op = "agree"; flag = -1'), "J4 step 0", [f"line 7, column 1: {FIRST}{integer('flag', -1, 0, 4294967295)}"]),
    ("a flag of 33 bits", step('op = "agree"; flag = 4294967296'), "J4 step 0", [
        f"line 7, column 1: {FIRST}{integer('flag', 4294967296, 0, 4294967295)}",
    ]),
    ("an unknown key is told before the range of a flag", step('op = "agree"; flag = 4294967296; value = 1'), "J3 step 0", [
        f"line 8, column 1: {FIRST}key 'value' is unknown; agree has op, rank, flag, comm",
        f"line 7, column 1: {FIRST}{integer('flag', 4294967296, 0, 4294967295)}",
    ]),
    ("a misspelt flag", step('op = "agree"; falg = 1'), "J2 step 0", [
        f"line 4, column 1: {FIRST}key 'flag' is missing; it has to be",
        f"line 7, column 1: {FIRST}key 'falg' is unknown; did you mean 'flag'? agree has op, rank, flag, comm",
    ]),
    ("a number for again", step('op = "dup"; again = 1'), "J2 step 0", [f"line 7, column 1: {FIRST}key 'again' is the integer 1, and has to be true or false"]),
    ("a list for a communicator", step('op = "dup"; comm = [0]'), "J2 step 0", [
        f"line 7, column 1: {FIRST}key 'comm' is an array, and has to be an integer from 0 to 62, or the name of an earlier dup or shrink in quotes"]),
    ("a communicator by a name that isn't there", step('op = "dup"; comm = "left"'), "J4 step 0", [
        f"line 7, column 1: {FIRST}key 'comm' is 'left', and no earlier step of its rank has this name"]),
    ("a communicator by a step that makes none", line('rank = 0, op = "revoke", name = "a"; rank = 0, op = "dup", comm = "a"'), "J4 step 1", [
        "key 'comm' is 'a', and the step of this name is a revoke, which makes no communicator"]),
    ("a communicator by a step of another rank", line('rank = 0, op = "dup", name = "a"; rank = 1, op = "dup", comm = "a"'), "J4 step 1", [
        "key 'comm' is 'a', and no earlier step of its rank has this name"]),
    ("again of a revoke", step('op = "revoke"; again = true'), "J3 step 0", [f"line 7, column 1: {FIRST}key 'again' is unknown; revoke has op, rank, comm, name"]),
    ("a flag of a shrink", step('op = "shrink"; flag = 1'), "J3 step 0", [f"line 7, column 1: {FIRST}key 'flag' is unknown; shrink has op, rank, comm"]),
    ("a flag of a send", step('op = "send"; to = 1; tag = 5; body = ""; flag = 1'), "J3 step 0", [
        f"line 10, column 1: {FIRST}key 'flag' is unknown; did you mean 'tag'? send has op, rank, to, tag, body, comm",
    ]),
    ("a req of a stop", step('op = "stop"; req = 0'), "J3 step 0", [f"line 7, column 1: {FIRST}key 'req' is unknown; stop has op, rank"]),
    # Notes.
    ("a note without a text", step('op = "note"'), "J2 step 0", [
        f"line 4, column 1: {FIRST}key 'text' is missing; it has to be a text of 1 to 32 letters, digits, spaces, '_', '-' and '.'",
    ]),
    ("a note of two lines", step('op = "note"; text = "a\\nb"'), "J4 step 0", [f"line 7, column 1: {FIRST}text 'a?b' has to be 1 to 32 letters, digits, spaces,"]),
    ("an empty note", step('op = "note"; text = ""'), "J4 step 0", [f"line 7, column 1: {FIRST}text '' has to be 1 to 32 letters, digits, spaces, '_', '-' and '.'"]),
    ("a note on a communicator", step('op = "note"; text = "a"; comm = 0'), "J3 step 0", [f"line 8, column 1: {FIRST}key 'comm' is unknown; note has op, rank, text"]),
    ("MPI's word for a note", step('op = "MPI_Pcontrol"; text = "a"'), "J5 step 0", [f"line 6, column 1: {FIRST}op 'MPI_Pcontrol' is unknown; did you mean 'note'? {OPS}"]),
    ("a refusal of a note", line('rank = 0, op = "note", text = "a", expect = ["refused 1"]'), "J4 step 0", [
        f"{FIRST}key 'expect' has 'refused 1', and no answer of 'note' begins so; its answers begin with noted",
    ]),
]
