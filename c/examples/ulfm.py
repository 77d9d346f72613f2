"""The calls of c/include/ulfm.h for Python, by ctypes: what each answers, its ranges and its refusals stand there.

    ranks = ulfm.world(4)
    each in a thread of its own: rank.isend(0, 1, 7, b"abc"), rank.wait(rank.irecv(0, 0, 7, 100), 100), ..
    at the end: rank.end()

The library is the file that ULFM_LIBRARY names, else c/out/libulfm.so, which `tools/kit/build c` makes.
"""
import ctypes
import os
import pathlib
import time
from ctypes import POINTER, byref, c_char_p, c_size_t, c_uint8, c_uint32, c_uint64, c_void_p

ANY = 2 ** 32 - 1
PROC_FAILED, REVOKED, NOT_YET, PENDING = 5, 6, 17, 18
FIRST_NAP, LONGEST_NAP = 0.00002, 0.002


class Slot(ctypes.Structure):
    _fields_ = [("at", c_void_p), ("holds", c_uint32)]


class Status(ctypes.Structure):
    _fields_ = [("source", c_uint32), ("tag", c_uint32), ("length", c_uint64), ("error", c_uint32), ("cancelled", c_uint32)]


class Group(ctypes.Structure):
    _fields_ = [("size", c_uint32), ("members", c_uint8 * 8)]


_BODY, _OUT, _ID, _COMM = [c_char_p, c_size_t], [POINTER(c_uint32)], [POINTER(c_uint64)], [c_uint64]
_CALLS = {
    "end": [], "stop": [], "turn": _OUT, "flushed": _OUT, "me": _OUT, "group_of": [*_COMM, POINTER(Group)], "position": _COMM + _OUT,
    "dup": _COMM + _ID, "isend": _COMM + [c_uint32] * 2 + _BODY, "irecv": _COMM + [c_uint32] * 3 + _ID, "test": [c_uint64, POINTER(Status), *_BODY],
    "cancel": [c_uint64, POINTER(Status), *_BODY], "iprobe": _COMM + [c_uint32] * 2 + [POINTER(Status)],
    "improbe": _COMM + [c_uint32] * 2 + _ID + [POINTER(Status)], "mrecv": [c_uint64, POINTER(Status), *_BODY], "revoke": _COMM,
    "is_revoked": _COMM + _OUT, "get_failed": [*_COMM, POINTER(Group)], "ack_failed": [*_COMM, c_uint32, *_OUT], "enter_shrink": _COMM,
    "poll_shrink": _COMM + _ID, "enter_agree": [*_COMM, c_uint32], "poll_agree": [*_COMM, *_OUT, POINTER(Group)],
}


def _load():
    library = ctypes.CDLL(os.environ.get("ULFM_LIBRARY") or str(pathlib.Path(__file__).resolve().parent.parent / "out/libulfm.so"))
    library.ulfm_world.argtypes = [POINTER(Slot), c_size_t, c_uint8]
    for name, words in _CALLS.items():
        getattr(library, f"ulfm_{name}").argtypes = [POINTER(Slot), *words]
    return library


_library = _load()


class Error(Exception):
    """A call that was refused, or a receive that ended without a message: the code of ulfm.h."""

    def __init__(self, call, code):
        super().__init__(f"{call}: {code}")
        self.code = code


class Rank:
    """A rank of a world, for one thread at a time. What waits turns until its answer is there."""

    def __init__(self, slots, number):
        self.slots, self.slot, self.number, self.nap = slots, byref(slots[number]), number, FIRST_NAP

    def begin(self, call):
        """Is called before each call that begins something or waits: c/examples/every_stop.py stops ranks here."""

    def rest(self, moved):
        """Is called between looks: sleeps where nothing moved, longer each time."""
        self.nap = FIRST_NAP if moved else min(2 * self.nap, LONGEST_NAP)
        time.sleep(0 if moved else self.nap)

    def ask(self, call, *words):
        """The code of a call: 0, or 17 or 18 of what may come yet. Other codes are an Error."""
        code = getattr(_library, f"ulfm_{call}")(self.slot, *words)
        if code not in (0, NOT_YET, PENDING):
            raise Error(call, code)
        return code

    def number_of(self, call, *words, kind=c_uint32):
        """The number that a call gives."""
        number = kind()
        self.ask(call, *words, byref(number))
        return number.value

    def until(self, call, *words):
        """Calls again and again, with turns between, until it is answered. Its code: 0, or 18."""
        while (code := self.ask(call, *words)) == NOT_YET:
            self.rest(self.number_of("turn"))
        return code

    def group(self, comm):
        """The world ranks of a communicator's members, by their positions."""
        group = Group()
        self.ask("group_of", comm, byref(group))
        return list(group.members[:group.size])

    def position(self, comm):
        return self.number_of("position", comm)

    def isend(self, comm, dest, tag, body):
        self.begin("isend")
        self.ask("isend", comm, dest, tag, body, len(body))

    def irecv(self, comm, source, tag, room):
        """The number of the request."""
        self.begin("irecv")
        return self.number_of("irecv", comm, source, tag, room, kind=c_uint64)

    def wait(self, request, room):
        """The body that a receive got. An Error where it ended without one, or pends (18)."""
        self.begin("wait")
        status, body = Status(), ctypes.create_string_buffer(room)
        code = self.until("test", request, byref(status), body, room) or status.error
        if code:
            raise Error("wait", code)
        return body.raw[:status.length]

    def revoke(self, comm):
        self.begin("revoke")
        self.ask("revoke", comm)

    def failed(self, comm):
        """The world ranks of the members that are known to have failed."""
        group = Group()
        self.ask("get_failed", comm, byref(group))
        return list(group.members[:group.size])

    def shrink(self, comm):
        """The communicator of those that are left."""
        self.begin("enter_shrink")
        self.ask("enter_shrink", comm)
        self.begin("poll_shrink")
        made = c_uint64()
        self.until("poll_shrink", comm, byref(made))
        return made.value

    def agree(self, comm, flag):
        """The AND of the flags, and the world ranks of the members whose flag isn't in it."""
        self.begin("enter_agree")
        self.ask("enter_agree", comm, flag)
        self.begin("poll_agree")
        value, missing = c_uint32(), Group()
        self.until("poll_agree", comm, byref(value), byref(missing))
        return value.value, list(missing.members[:missing.size])

    def stop(self):
        self.ask("stop")

    def end(self):
        self.ask("end")


def world(ranks, capacity=16, kind=Rank):
    """The ranks of a new world."""
    slots = (Slot * ranks)()
    code = _library.ulfm_world(slots, ranks, capacity)
    if code:
        raise Error("world", code)
    return [kind(slots, number) for number in range(ranks)]
