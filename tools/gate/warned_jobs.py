"""Good jobs of two ranks, and what `check` warns of. tools/gate/bad-jobs asks the program."""
FIRST = "rank 0 step 0 (step 0 of the file): "
COUNTED = "req counts the steps of one rank, from 0: this step will be refused"

# Good jobs: what it is, its steps, and what `check` warns of.
WARNED = [
    ("nothing to warn of", 'rank = 0, op = "recv"; rank = 0, op = "wait", req = 0', []),
    ("to past the ranks", 'rank = 0, op = "send", to = 2, tag = 0, body = ""', [
        f"line 4, column 33: {FIRST}key 'to' is 2, and no communicator has more than the 2 ranks 0 to 1: this step will be refused",
    ]),
    ("from past the ranks", 'rank = 1, op = "recv", from = 2', ["line 4, column 33: rank 1 step 0 (step 0 of the file): key 'from' is 2 .. 0 to 1: this step"]),
    ("a body too long", 'rank = 0, op = "send", to = 1, tag = 0, body = "' + "a" * 1025 + '"', [f"{FIRST}key 'body' has 1025 bytes, and 1024 are the most: this"]),
    ("a wait before its receive", 'rank = 1, op = "wait", req = 1; rank = 1, op = "recv"', [f"key 'req' is 1, and step 1 of its rank comes later; {COUNTED}"]),
    ("a wait for itself", 'rank = 1, op = "wait", req = 0', [f"line 4, column 33: rank 1 step 0 .. key 'req' is 0, and that is this step itself; {COUNTED}"]),
    ("a wait for a step that isn't there", 'rank = 0, op = "recv"; rank = 0, op = "recv"; rank = 1, op = "wait", req = 1', [
        f"rank 1 step 0 (step 2 of the file): key 'req' is 1, and its rank has no step 1; {COUNTED}",
    ]),
    ("a wait for a dup", 'rank = 1, op = "dup"; rank = 1, op = "wait", req = 0', [f"rank 1 step 1 .. key 'req' is 0, and step 0 of its rank is no recv but a dup; {COUNTED}"]),
    ("a wait for a probe", 'rank = 1, op = "probe"; rank = 1, op = "wait", req = 0', [f"rank 1 step 1 .. step 0 of its rank is no recv but a probe; {COUNTED}"]),
    ("a cancel of an mrecv", 'rank = 1, op = "probe"; rank = 1, op = "mrecv", req = 0; rank = 1, op = "cancel", req = 1', [
        f"rank 1 step 2 .. key 'req' is 1, and step 1 of its rank is no recv but an mrecv; {COUNTED}",
    ]),
    ("an mrecv of a recv", 'rank = 1, op = "recv"; rank = 1, op = "mrecv", req = 0', [f"rank 1 step 1 .. step 0 of its rank is no probe but a recv; {COUNTED}"]),
    ("a probe past the ranks", 'rank = 1, op = "probe", from = 2; rank = 1, op = "mrecv", req = 0', [
        "line 4, column 34: rank 1 step 0 (step 0 of the file): key 'from' is 2 .. 0 to 1: this step",
        "rank 1 step 1 .. key 'req' is 0, and the probe that is step 0 of its rank will be refused: this step will be refused",
    ]),
    ("a message received twice", 'rank = 1, op = "probe"; rank = 1, op = "mrecv", req = 0, room = 0; rank = 1, op = "mrecv", req = 0', [
        "rank 1 step 2 .. key 'req' is 0, and step 1 of its rank, an mrecv, uses up what that one left: this step will be refused",
    ]),
    ("a wait behind a cancel", 'rank = 1, op = "recv"; rank = 1, op = "wait", req = 0; rank = 1, op = "cancel", req = 0; rank = 1, op = "wait", req = 0', [
        "rank 1 step 3 .. key 'req' is 0, and step 2 of its rank, a cancel, uses up what that one left: this step will be refused",
    ]),
    ("a probe behind a revocation", 'rank = 0, op = "revoke"; rank = 0, op = "probe"; rank = 0, op = "cancel", req = 9', [
        "rank 0 step 1 .. step 0 of its rank revokes communicator 0: this step will be refused",
        f"rank 0 step 2 .. key 'req' is 9, and its rank has no step 9; {COUNTED}",
    ]),
    ("a wait for what is refused", 'rank = 0, op = "recv", comm = 2; rank = 0, op = "wait", req = 0', [
        f"line 4, column 33: {FIRST}no earlier step of its rank makes communicator 2 (a shrink of 0 does): this step will be refused",
        "rank 0 step 1 .. key 'req' is 0, and the recv that is step 0 of its rank will be refused: this step will be refused",
    ]),
    ("communicators that nobody makes", 'rank = 0, op = "dup"; rank = 1, op = "send", comm = 1, to = 0, tag = 0, body = ""; rank = 1, op = "failed", comm = 4', [
        "rank 1 step 0 .. makes communicator 1 (a dup of 0 does): this step will be refused",
        "rank 1 step 1 .. makes communicator 4 (a shrink of 1 does): this step will be refused",
    ]),
    ("the same communicator again", 'rank = 0, op = "dup"; rank = 0, op = "shrink"; rank = 0, op = "shrink"; rank = 0, op = "dup"', [
        "rank 0 step 2 .. step 1 of its rank is a shrink of communicator 0 too, and one is the most: this step will be refused",
        "rank 0 step 3 .. step 0 of its rank is a dup of communicator 0 too",
    ]),
    ("further communicators", 'rank = 0, op = "dup"; rank = 0, op = "dup", again = true; rank = 0, op = "shrink", again = true; rank = 0, op = "shrink"', [
        "rank 0 step 3 .. step 2 of its rank is a shrink of communicator 0 too, and one is the most: this step will be refused",
    ]),
    ("made between", 'rank = 0, op = "dup", comm = 2; rank = 0, op = "shrink"; rank = 0, op = "dup", comm = 2', ["rank 0 step 0 .. makes communicator 2"]),
    ("revoked before", 'rank = 0, op = "revoke"; rank = 0, op = "recv"; rank = 0, op = "failed"; rank = 0, op = "shrink"', [
        "rank 0 step 1 .. step 0 of its rank revokes communicator 0: this step will be refused",
    ]),
    ("agreements, revoked too", 'rank = 0, op = "agree", flag = 1; rank = 0, op = "revoke"; rank = 0, op = "agree", flag = 1', []),
    ("an agreement where nobody makes the communicator", 'rank = 0, op = "agree", flag = 1, comm = 2; rank = 0, op = "agree", flag = 1, comm = 1', [
        "rank 0 step 0 .. makes communicator 2 (a shrink of 0 does): this step will be refused",
        "rank 0 step 1 .. makes communicator 1 (a dup of 0 does): this step will be refused",
    ]),
    ("a wait for an agreement", 'rank = 1, op = "agree", flag = 1; rank = 1, op = "wait", req = 0', [
        f"rank 1 step 1 .. key 'req' is 0, and step 0 of its rank is no recv but an agree; {COUNTED}",
    ]),
    ("an agreement makes no communicator", 'rank = 0, op = "agree", flag = 1; rank = 0, op = "recv", comm = 2', [
        "rank 0 step 1 .. makes communicator 2 (a shrink of 0 does): this step will be refused",
    ]),
    ("no context left", '; '.join(f'rank = 0, op = "dup", comm = {it}' for it in (0, 1, 3, 7, 15, 31)), [
        "rank 0 step 5 .. key 'comm' is 31, and 30 is the last of which there is a dup: this step will be refused",
    ]),
    ("behind a stop that may be skipped", 'rank = 0, op = "failed"; rank = 0, op = "stop", if = { step = 0, is = ["refused"] }; rank = 0, op = "wait", req = 9', [
        f"rank 0 step 2 .. key 'req' is 9, and its rank has no step 9; {COUNTED}",
    ]),
    ("a revocation that may be skipped", 'rank = 0, op = "failed"; rank = 0, op = "revoke", if = { step = 0, is = ["refused"] }; rank = 0, op = "recv"', []),
    ("a wait by a name", 'rank = 1, op = "dup", name = "a"; rank = 1, op = "wait", req = "a", name = "b"', [
        f"rank 1 step 1 'b' (step 1 of the file): key 'req' is 0, and step 0 'a' of its rank is no recv but a dup; {COUNTED}",
    ]),
    ("behind a stop", 'rank = 0, op = "stop"; rank = 0, op = "wait", req = 9; rank = 0, op = "recv", from = 7', []),
]
