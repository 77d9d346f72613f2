"""Replies that tests/ can't say: inputs and outputs that break off, fail, or go a little at a time, the longest jobs, runs that differ."""
import fcntl
import os
import pathlib
import re
import resource
import signal
import socket
import struct
import subprocess
import tempfile
import termios
import time
from contextlib import contextmanager
from functools import partial

SECONDS = 60
HEAD = "ranks = 2\ncapacity = 4\nturns = 10\n"
ONE_LETTER = HEAD + """
[[step]]
rank = 0
op = "send"
to = 1
tag = 5
body = "abc"

[[step]]
rank = 1
op = "recv"
from = 0
tag = 5

[[step]]
rank = 1
op = "wait"
req = 0
"""
BAD = "ranks = 9\ncapacity = 1\nturns = 1\n"
# Commands and jobs, with the status and the output of each.
ANSWERED = [
    ("check", ONE_LETTER, 0, "job ok: 2 ranks 3 steps\n"),
    ("replay", ONE_LETTER, 0, "0 0 send 1 tag 5 comm 0: sent\n0 end: done\n1 0 recv 0 tag 5 comm 0: posted\n"
                              "1 1 wait 0: done from 0 tag 5 616263\n1 end: done\n"),
    ("check", BAD, 1, "job refused: J4\n"),
    ("replay", BAD, 1, "job refused: J4\n"),
]
# How many beginnings of the text are good jobs, the whole left out: four with no step, three with one, seven with two, one with three.
GOOD_BEGINNINGS = 15
# The least that a pipe holds, and by which number it is told so, which Python has a name for since 3.10.
PIPE, F_SETPIPE_SZ = 4096, 1031


def run(program, words, job, **more):
    """The status, the output and the errors."""
    ran = subprocess.run([program, *words], input=job.encode(), capture_output=True, timeout=SECONDS, check=False, **more)
    return ran.returncode, ran.stdout.decode(), ran.stderr.decode()


@contextmanager
def begun(*words, **more):
    """A process, which doesn't outlive what is done with it."""
    with subprocess.Popen(words, **more) as child:
        try:
            yield child
        finally:
            child.kill()


def text_that_breaks_off(program):
    good = 0
    for text in (ONE_LETTER, ONE_LETTER.replace("\n\n", "\n")):
        for n in range(len(text)):
            status, output, _ = run(program, ["check"], text[:n])
            good += status == 0 and text == ONE_LETTER
            if status not in (0, 1) or not output.startswith(["job ok: 2 ranks ", "job refused: J"][status]):
                yield f"cut before byte {n}: status {status}, {output}"
    if good != GOOD_BEGINNINGS:
        yield f"{good} beginnings are good jobs, and not {GOOD_BEGINNINGS}"


def limited(program, words, job, room):
    """The status, the output and the errors, where the output is a file that takes so many bytes, and then fails."""
    def limit():
        signal.signal(signal.SIGXFSZ, signal.SIG_IGN)
        resource.setrlimit(resource.RLIMIT_FSIZE, (room, resource.getrlimit(resource.RLIMIT_FSIZE)[1]))

    with tempfile.TemporaryFile() as output:
        # (the errors go to a pipe, which has no such limit)
        ran = subprocess.run([program, *words], input=job.encode(), stdout=output, stderr=subprocess.PIPE, preexec_fn=limit, timeout=SECONDS,
                             check=False)
        output.seek(0)
        return ran.returncode, output.read().decode(), ran.stderr.decode()


def output_that_fails(program):
    for command, begins in (("replay", "0 0 send 1"), ("check", "job ok: 2 ")):
        status, output, _ = limited(program, [command], ONE_LETTER, 10)
        if (status, output) != (4, begins):
            yield f"{command}: status {status}, '{output}'"
    told = limited(program, ["check", "no.toml", "no.toml"], "", 3)
    if told != (4, "== ", ""):
        yield f"files: {told}"


def output_that_takes_a_little(program):
    """A write that a stop of the process cuts short, behind what the pipe holds."""
    job = HEAD + "step = [" + ", ".join(f'{{rank = {n % 2}, op = "failed"}}' for n in range(128)) + "]\n"
    words = ["places", "--stops", "2"]
    _, all_of_it, _ = run(program, words, job)
    with begun(program, *words, stdin=subprocess.PIPE, stdout=subprocess.PIPE) as child:
        fcntl.fcntl(child.stdout, F_SETPIPE_SZ, PIPE)
        child.stdin.write(job.encode())
        child.stdin.close()
        for _ in range(3):
            wait_for(partial(waiting, child.stdout), PIPE)
            child.send_signal(signal.SIGSTOP)
            wait_for(partial(state, child.pid), "T")
            child.send_signal(signal.SIGCONT)
            os.read(child.stdout.fileno(), PIPE)
        child.stdin = None
        output, _ = child.communicate(timeout=SECONDS)
    if output.decode() != all_of_it[3 * PIPE:] or child.returncode or not output:
        yield "not all is written"


def waiting(stream):
    """How many bytes wait to be read."""
    return struct.unpack("i", fcntl.ioctl(stream, termios.FIONREAD, b"    "))[0]


def state(pid):
    """The letter of a process's state."""
    return pathlib.Path(f"/proc/{pid}/stat").read_text().rpartition(")")[2].split()[0]


def wait_for(now, wanted):
    until = time.monotonic() + SECONDS
    while now() != wanted:
        if time.monotonic() > until:
            raise TimeoutError(f"'{wanted}' doesn't come")
        time.sleep(0.001)


def input_that_fails(program):
    for command in ("check", "replay"):
        ours, theirs = socket.socketpair()
        with theirs, begun(program, command, stdin=theirs, stdout=subprocess.PIPE, stderr=subprocess.DEVNULL) as child:
            theirs.send(b"never read")
            ours.send(b"r")
            wait_for(partial(waiting, theirs), 0)
            # The other end goes without having read all, so that the second read fails.
            ours.close()
            output, _ = child.communicate(timeout=SECONDS)
        if (child.returncode, output) != (5, b""):
            yield f"{command}: status {child.returncode}, {output}"


def input_that_gives_a_little(program):
    for most in (1, 7, len(ONE_LETTER)):
        for command, job, status, text in ANSWERED:
            # (a read of such a socket gives one packet)
            ours, theirs = socket.socketpair(socket.AF_UNIX, socket.SOCK_SEQPACKET)
            with ours, begun(program, command, stdin=theirs, stdout=subprocess.PIPE, stderr=subprocess.DEVNULL) as child:
                theirs.close()
                for at in range(0, len(job), most):
                    ours.send(job[at : at + most].encode())
                ours.shutdown(socket.SHUT_WR)
                output, _ = child.communicate(timeout=SECONDS)
            if (child.returncode, output.decode()) != (status, text):
                yield f"{command}, {most} at a time: status {child.returncode}, {output}"


def longest_jobs(program):
    longest = "#" * (1_048_576 - 1 - len(ONE_LETTER)) + "\n" + ONE_LETTER
    for job, wanted in ((longest, (0, "job ok: 2 ranks 3 steps\n")), (longest + "\n", (1, "job refused: J6\n"))):
        answer = run(program, ["check"], job)[:2]
        if answer != wanted:
            yield f"of {len(job)} bytes: {answer}"


def sweeps_of_many_stops(program):
    stops = lambda count: "ranks = 1\ncapacity = 1\nturns = 1\nstep = [\n" + '{rank = 0, op = "stop"},\n' * count + "]\n"
    why = "a job has 256 steps at most: with stops put in, as by sweep, places and --stop, there are too many\n"
    too_many, most = run(program, ["sweep"], stops(256)), run(program, ["sweep"], stops(255))
    if too_many != (1, "job refused: J6\n", why):
        yield f"of 256 steps: {too_many}"
    if most[0] or most[1].count("\n") != 256:
        yield f"of 255 steps: {most}"


def longest_expansions(program):
    """A job of 256 steps, half of which have lists of texts as long as this: only the shorter ones may be written out."""
    text = lambda most: "done from 0 " + "x" * (most - len("done from 0 "))
    steps = lambda most: '{rank = "all", op = "recv", name = "a"},\n{rank = "all", op = "wait", req = "a", expect = ' + str([text(most)] * 16).replace("'", '"') + "},\n"
    job = lambda most: "ranks = 4\ncapacity = 1\nturns = 1\nstep = [{repeat = 32, steps = [\n" + steps(most) + "]}]\n"
    why = "a job's text has 1048576 bytes at most: with its steps and rows written out it has more\n"
    too_long, longest = run(program, ["expand"], job(1024)), run(program, ["expand"], job(400))
    if too_long != (1, "job refused: J6\n", why):
        yield f"of long texts: {too_long[0]}, {too_long[1][:80]}, {too_long[2]}"
    if longest[0] or len(longest[1]) < 800_000 or run(program, ["check"], longest[1])[:2] != (0, "job ok: 4 ranks 256 steps\n"):
        yield f"of texts of 400 bytes: {longest[0]}, {len(longest[1])} bytes, {longest[2]}"


def runs_that_differ(program):
    """A wait of few polls, whose message may come in time, or not: what differs is counted step by step."""
    job = """ranks = 2
capacity = 1
turns = 3
step = [
    {rank = 0, op = "recv"},
    {rank = 0, op = "wait", req = 0},
    {rank = 1, op = "send", to = 0, tag = 1, body = "a"},
]
"""
    common = ["20 of 20 runs:", "0 0 recv any tag any comm 0: posted", "0 end: done", "1 0 send 0 tag 1 comm 0: sent", "1 end: done"]
    counted = r"(\d+) of 20 runs(?:: 0 1 wait 0: done from 1 tag 1 61| hang: 0 1 wait 0: unfinished)"
    told = r"0 1 wait 0: (?:done from 1 tag 1 61|unfinished)"
    for carrier in ("lanes", "shared"):
        status, output, _ = run(program, ["run", "--carrier", carrier, "--repeat", "20", "--brief"], job)
        lines = [it for it in output.splitlines() if it not in common]
        counts = [int(it[1]) for it in (re.fullmatch(counted, line) for line in lines) if it]
        is_same = len(lines) == 1 and bool(re.fullmatch(told, lines[0]))
        if status or len(output.splitlines()) - len(lines) != 5 or not (is_same or len(lines) == len(counts) == 2 and sum(counts) == 20):
            yield f"over {carrier}: status {status}, {output}"


CHECKS = [text_that_breaks_off, output_that_fails, output_that_takes_a_little, input_that_fails, input_that_gives_a_little, longest_jobs,
          sweeps_of_many_stops, longest_expansions, runs_that_differ]


def tried(check, program):
    """What a check is, and what it finds wrong."""
    yield check.__name__.replace("_", " "), list(check(program))
