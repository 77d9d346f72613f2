"""Bad jobs of two ranks, and what the program says of them: of names, conditions, expectations and answers that must not go together.
tools/gate/bad-jobs asks the program."""
from refused_jobs import HEAD, OPS, integer, line, step
from warned_jobs import FIRST

NAMED = 'rank = 0, op = "recv", name = "x"; rank = 0, op = "dup", name = "12-"; rank = 1, op = "dup"'
LONG = "comm " + "1" * 1020

# What the job is, its text, what follows 'job refused: ' on standard output, and the lines on standard error.
CLAUSES = [
    # Names, conditions and what steps expect.
    ("a name with a space", step('op = "dup"; name = "a b"'), "J4 step 0", [
        f"line 7, column 1: {FIRST}name 'a b' has to be 1 to 32 letters, digits, '_' and '-'",
    ]),
    ("a name that is a number", step('op = "dup"; name = 1'), "J2 step 0", [f"line 7, column 1: {FIRST}key 'name' is the integer 1, and has to be a text of 1 to 32"]),
    ("a name twice", line('rank = 0, op = "dup", name = "a"; rank = 0, op = "dup", comm = 1, name = "a"'), "J4 step 1", [
        "rank 0 step 1 'a' (step 1 of the file): name 'a' is that of step 0 of its rank too",
    ]),
    ("a req by no name", line('rank = 0, op = "recv", name = "a"; rank = 0, op = "wait", req = "b"'), "J4 step 1", [
        "rank 0 step 1 (step 1 of the file): key 'req' is 'b', and no earlier step of its rank has this name",
    ]),
    ("a req by the name of another rank's step", line('rank = 0, op = "recv", name = "a"; rank = 1, op = "wait", req = "a"'), "J4 step 1", [
        "rank 1 step 0 (step 1 of the file): key 'req' is 'a', and no earlier step of its rank has this name",
    ]),
    ("a req by its own name", line('rank = 0, op = "wait", req = "a", name = "a"'), "J4 step 0", ["rank 0 step 0 'a' (step 0 of the file): key 'req' is 'a', and no"]),
    ("a condition on the step itself", line('rank = 0, op = "dup", if = { step = 0, is = ["comm"] }'), "J4 step 0", [
        f"{FIRST}key 'if' names step 0, and that is no earlier step of its rank",
    ]),
    ("a condition on a later step", line('rank = 0, op = "dup", if = { step = 1, is = ["comm"] }; rank = 0, op = "stop"'), "J4 step 0", [
        f"{FIRST}key 'if' names step 1, and that is no earlier step of its rank",
    ]),
    ("a condition by no name", line('rank = 0, op = "dup", if = { step = "a", is = ["comm"] }'), "J4 step 0", [
        f"{FIRST}key 'step' is 'a', and no earlier step of its rank has this name",
    ]),
    ("an unknown key of a condition", line('rank = 0, op = "dup"; rank = 0, op = "stop", if = { step = 0, is = ["comm"], when = 1 }, name = "a"'), "J3 step 1", [
        "rank 0 step 1 'a' (step 1 of the file): key 'when' is unknown; an if has step, is",
    ]),
    ("a condition without words", line('rank = 0, op = "dup"; rank = 0, op = "stop", if = { step = 0, is = [] }'), "J4 step 1", ["key 'is' has 0 items, and has to have 1 to 16"]),
    ("a condition with words of another op", line('rank = 0, op = "dup"; rank = 0, op = "stop", if = { step = 0, is = ["done"] }'), "J4 step 1", [
        "key 'is' has 'done', and no answer of 'dup' begins so",
    ]),
    ("a condition with a text of 1025 bytes", line('rank = 0, op = "dup"; rank = 0, op = "stop", if = { step = 0, is = ["' + LONG + '"] }'), "J4 step 1", [
        "key 'is' has a text of 1025 bytes, and 1024 are the most",
    ]),
    ("no conditions", line('rank = 0, op = "dup", if = []'), "J4 step 0", [f"{FIRST}key 'if' has 0 items, and has to have 1 to 16"]),
    *[(name, line(f'rank = 0, op = "dup"; rank = 0, op = "stop", if = {table}'), f"{code} step 1", [f"rank 0 step 1 (step 1 of the file): {told}"]) for name, table, code, told in (
        ("an if of another kind", "1", "J2", "key 'if' is the integer 1, and has to be a table with 'step' and 'is' or 'not', or with 'all', or a list of 1 to 16"),
        ("neither is nor not", "{ step = 0 }", "J2", "key 'is' is missing; it has to be a list of 1 to 16 texts in quotes"),
        ("both is and not", '{ step = 0, is = ["comm"], not = ["refused"] }', "J3", "key 'not' is unknown; an if with 'is' has step, is"),
        ("an unknown key beside not", '{ step = 0, not = ["comm"], when = 1 }', "J3", "key 'when' is unknown; an if has step, not"),
        ("words of another op behind not", '{ step = 0, not = ["done"] }', "J4", "key 'not' has 'done', and no answer of 'dup' begins so"),
        ("an all that is no list", "{ all = 1 }", "J2", "key 'all' is the integer 1, and has to be a list of 1 to 16 tables with 'step' and 'is' or 'not'"),
        ("an all without conditions", "{ all = [] }", "J4", "key 'all' has 0 items, and has to have 1 to 16"),
        ("an all of 17 conditions", "{ all = [" + ", ".join(['{ step = 0, is = ["comm"] }'] * 17) + "] }", "J4", "key 'all' has 17 items, and has to have 1 to 16"),
        ("a key beside all", '{ all = [{ step = 0, is = ["comm"] }], step = 0 }', "J3", "key 'step' is unknown; an if with 'all' has all"),
        ("an all of another kind", '{ all = [1] }', "J2", "key 'all' is the integer 1, and has to be a list of 1 to 16 tables with 'step' and 'is' or 'not'"),
        ("a later step in an all", '{ all = [{ step = 1, is = ["comm"] }] }', "J4", "key 'if' names step 1, and that is no earlier step of its rank"),
    )],
    ("words that no send answers", line('rank = 0, op = "send", to = 1, tag = 0, body = "", expect = ["send"]'), "J4 step 0", [
        f"{FIRST}key 'expect' has 'send', and no answer of 'send' begins so",
    ]),
    ("words behind a whole answer", line('rank = 0, op = "send", to = 1, tag = 0, body = "", expect = ["sent away"]'), "J4 step 0", [
        f"{FIRST}key 'expect' has 'sent away', and no answer of 'send' begins so",
    ]),
    ("words behind a refusal", line('rank = 0, op = "dup"; rank = 0, op = "failed", if = { step = 0, is = ["refused 6 Revoked 7"] }'), "J4 step 1", ["key 'is' has 'refused 6 Revoked 7', and no answer of 'dup' begins so"]),
    ("a part of a word", line('rank = 0, op = "dup", expect = ["com"]'), "J4 step 0", [f"{FIRST}key 'expect' has 'com', and no answer of 'dup' begins so"]),
    ("a refusal of a stop", line('rank = 0, op = "stop", expect = ["refused 1"]'), "J4 step 0", [f"{FIRST}key 'expect' has 'refused 1', and no answer of 'stop' begins so"]),
    ("skipped as what is expected", line('rank = 0, op = "dup", expect = ["skipped"]'), "J4 step 0", [f"{FIRST}key 'expect' has 'skipped', and no answer of 'dup' begins so"]),
    ("one text as what is expected", line('rank = 0, op = "dup", expect = "comm"'), "J2 step 0", [f"{FIRST}key 'expect' is the text \"comm\", and has to be a list of 1 to 16"]),
    ("a table without a name", line('rank = 0, op = "dup", expect = { is = ["comm"] }'), "J2 step 0", [f"{FIRST}key 'before' is missing; it has to be the name of a step in quotes"]),
    ("a table with another key", line('rank = 0, op = "dup", expect = { is = ["comm"], befor = "x", before = "x" }; rank = 1, op = "dup", name = "x"'), "J3 step 0", [
        f"{FIRST}key 'befor' is unknown; did you mean 'before'? an expect with 'before' has is, before",
    ]),
    ("a name that no step has", line('rank = 0, op = "dup", expect = { is = ["comm"], before = "x" }'), "J4", [f"{FIRST}key 'before' is 'x', and no step has this name"]),
    ("a name that no step can have", line('rank = 0, op = "dup", expect = { is = ["comm"], before = "" }'), "J4 step 0", [f"{FIRST}key 'before' is '', and no step has this name"]),
    ("other words in a table", line('rank = 0, op = "dup", expect = { is = ["sent"], before = "x" }; rank = 1, op = "dup", name = "x"'), "J4 step 0", [f"{FIRST}key 'expect' has 'sent', and no answer of 'dup' begins so"]),
    ("a range is told before a name", line('rank = 0, op = "dup", name = 1, comm = 63'), "J4 step 0", [
        f"{FIRST}{integer('comm', 63, 0, 62)}", f"{FIRST}key 'name' is the integer 1, and has to be",
    ]),
    # What must not go together.
    *[(f"{name} of never", f"never = {rows}\n{line(NAMED)}", "J4", [f"line 1, column 1: key 'never' has {fault}" if it else f"line 1, column 1: {fault}"]) for name, rows, it, fault in (
        ("no rows", "[]", True, "0 rows, and has to have 1 to 1024"),
        ("one text", '[["0.0 posted", "0.x posted"], ["0.0 posted"]]', False, "row 1 of key 'never' has 1 texts, and has to have 2 to 8"),
        ("a text without words", '[["0.0 posted", "0.x"]]', True, "'0.x', and each text has to be a rank, a dot"),
        ("a rank that there isn't", '[["0.0 posted", "2.0 posted"]]', True, "'2.0 posted', and there is no such step"),
        ("a step that there isn't", '[["0.0 posted", "0.2 posted"]]', True, "'0.2 posted', and there is no such step"),
        ("a number as a name", '[["0.0 posted", "0.12 posted"]]', True, "'0.12 posted', and there is no such step"),
        ("a name of another rank", '[["0.0 posted", "1.x posted"]]', True, "'1.x posted', and there is no such step"),
        ("another answer", '[["0.0 posted", "0.12- sent"]]', True, "'0.12- sent', and no answer of 'dup' begins so; its answers begin with comm, skipped, refused 1"),
        ("a text of 1025 bytes", '[["0.0 posted", "0.12- ' + LONG + '"]]', True, "a text of 1025 bytes, and 1024 are the most"),
        ("what no dup is", '[["0.0 posted", "0.12- unfinished"]]', True, "'0.12- unfinished', and no answer of 'dup' begins so"),
        ("a name that no rank has", '[["all.y posted", "0.0 posted"]]', True, "'all.y posted', and no ranks have steps of the names that its row says"),
        ("another answer of a rank of all", '[["0.0 posted", "any.x sent"]]', True, "'any.x sent', and no answer of 'recv' begins so"),
        ("no answer in a text over ranks", '[["all.x", "any.x posted"]]', True, "'all.x', and each text has to be a rank, a dot"),
        ("too many rows over ranks", "[" + '["all.x posted", "0.0 skipped"], ' * 1025 + "]", True, "1025 rows, and has to have 1 to 1024"),
    )],
    ("two ranks of which one has the name", 'never = [["all.x posted", "any.x skipped"]]\n' + line(NAMED), "J4", [
        "line 1, column 1: key 'never' has 'all.x posted', and no ranks have steps", "line 1, column 1: key 'never' has 'any.x skipped', and no ranks have steps",
    ]),
    ("many rows of few", "never = [" + '["all.x sent", "any.x skipped"], ' * 700 + "]\n" + line('rank = "all", op = "send", to = 0, tag = 1, body = "", name = "x"'), "J4", [
        "line 1, column 1: key 'never' has more than 1024 rows, one for each of the ranks for which 'all' and 'any' stand",
    ]),
    ("a row's name that no step has", 'never = [{ row = ["0.0 posted", "0.x posted"], before = "y" }]\n' + line(NAMED), "J4", ["line 1, column 1: key 'before' is 'y', and no step has this name"]),
    ("a row's table with another key", 'never = [{ row = ["0.0 posted", "0.x posted"], before = "x", is = 1 }]\n' + line(NAMED), "J3", [
        "line 1, column 1: key 'is' is unknown; a row with 'before' has row, before",
    ]),
    ("one text in a row's table", 'never = [{ row = ["0.0 posted"], before = "x" }]\n' + line(NAMED), "J4", ["line 1, column 1: row 0 of key 'never' has 1 texts, and has to have 2 to 8"]),
    ("an answer that no step of several ranks has", 'never = [["all.x gone", "any.x sent"], ["all.x gone", "0.x sent"]]\n' + line('rank = "all", op = "send", to = 0, tag = 1, body = "", name = "x"'), "J4", [
        "line 1, column 1: key 'never' has 'all.x gone', and no answer of 'send' begins so",
    ]),
    ("a name like one that a step has", 'never = [{ row = ["0.0 posted", "0.end noted"], before = "ende" }]\n' + line('rank = 0, op = "recv"; rank = 0, op = "note", text = "x", name = "end"'), "J4", [
        "line 1, column 1: key 'before' is 'ende', and no step has this name; did you mean 'end'?",
    ]),
    *[(f"{name} in place of a row", f"never = {rows}\n{line(NAMED)}", "J2", [f"line 1, column 1: {fault}"]) for name, rows, fault in (
        ("a table without its texts", '[{ before = "x" }]', "row 0 of key 'never' has no key 'row'; it has to be a list of texts in quotes"),
        ("a table without a name", '[["0.0 posted", "0.x posted"], { row = ["0.0 posted", "0.x posted"] }]', "row 1 of key 'never' has no key 'before'; it has to be the name of a step in quotes"),
        ("a table of one text", '[{ row = "x", before = "x" }]', "key 'row' in row 0 of key 'never' is the text \"x\", and has to be a list of texts in quotes"),
        ("a table with a number", '[{ row = ["0.0 posted", "0.x posted"], before = 1 }]', "key 'before' in row 0 of key 'never' is the integer 1, and has to be the name of a step in quotes"),
        ("a text beside a row", '[["0.0 posted", "0.x posted"], "x"]', "row 1 of key 'never' is the text \"x\", and has to be a list of texts in quotes, or a table"),
        ("a list with a number", '[["0.0 posted", 7]]', "row 0 of key 'never' has the integer 7 in it, and has to be a list of texts in quotes"),
    )],
    ("one row in place of rows", 'never = ["0.0 posted", "0.x posted"]\n' + line(NAMED), "J2", ["line 1, column 1: key 'never' is an array, and has to be a list of lists of texts in quotes"]),
    ("a fault of a step before a row", f'never = [["0.0 posted"]]\n' + line('rank = 0, op = "stop", comm = 0'), "J3 step 0", [
        "rank 0 step 0 (step 0 of the file): key 'comm' is unknown", "line 1, column 1: row 0 of key 'never' has 1 texts",
    ]),
    # Many at once.
    ("all in one step", HEAD + '[[step]]\nrank = 2\nop = "sned"\ntoo = 1\ntga = 5\nbody = ""\ncomm = 99\n', "J5 step 0", [
        f"line 6, column 1: step 0 of the file: op 'sned' is unknown; did you mean 'send'? {OPS}",
        "line 8, column 1: step 0 of the file: key 'tga' is unknown; did you mean 'tag'? a step has op, rank, to,",
        "line 7, column 1: step 0 of the file: key 'too' is unknown; did you mean 'to'? a step has",
        f"line 5, column 1: step 0 of the file: {integer('rank', 2, 0, 1)}",
        f"line 10, column 1: step 0 of the file: {integer('comm', 99, 0, 62)}",
    ]),
    ("many of a send", step('op = "send"; too = 1; tga = 5; body = ""; comm = 99'), "J2 step 0", [
        f"line 4, column 1: {FIRST}key 'to' is missing; it has to be an integer from 0 to 7",
        f"line 4, column 1: {FIRST}key 'tag' is missing",
        f"line 8, column 1: {FIRST}key 'tga' is unknown; did you mean 'tag'? send has op, rank, to, tag, body, comm",
        f"line 7, column 1: {FIRST}key 'too' is unknown; did you mean 'to'?",
        f"line 10, column 1: {FIRST}{integer('comm', 99, 0, 62)}",
    ]),
    ("brackets in a text and in a comment", HEAD + """step = [
  { rank = 0, op = "send", to = 1, tag = 0, body = "]}, [" }, # ]
  { rank = 1, op = "dup" }, { rank = 1, op = "recv", form = 0, comm = 99 },
]
""", "J3 step 2", [
        "line 6, column 54: rank 1 step 1 (step 2 of the file): key 'form' is unknown; did you mean 'from'?",
        f"line 6, column 64: rank 1 step 1 (step 2 of the file): {integer('comm', 99, 0, 62)}",
    ]),
    ("twenty faults", HEAD + '[[step]]\nrank = 2\nop = "stop"\n' * 20, "J4 step 0", [
        f"line {5 + 3 * at}, column 1: step {at} of the file: key 'rank' is 2" for at in range(10)
    ]),
]
