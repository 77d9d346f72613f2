"""Runs a program over ulfm.py once for each call of each rank, and stops that rank there.

A call is one that begins something or waits. A place is right where each rank that wasn't stopped ends with a result that is right. Where nobody can
move any more the run ends at once: each rank has looked, and turned in vain, since the last change that any rank made.
"""
import concurrent.futures
import threading

import ulfm


class Stop(Exception):
    """The rank stops here, by plan."""


class Stuck(Exception):
    """Nobody can move any more."""


class Run:
    """What the ranks of one run share."""

    def __init__(self, ranks):
        self.lock, self.ranks = threading.Lock(), ranks
        self.changes, self.through, self.is_stuck = 0, 0, False
        self.idle = {}

    def change(self, number):
        with self.lock:
            self.changes += 1
            self.idle.pop(number, None)

    def is_idle(self, number, seen):
        """Marks a rank that looked in vain since `seen`: then nobody can move, where all others have too."""
        with self.lock:
            if seen != self.changes:
                return
            self.idle[number] = seen
            others = [self.idle.get(rank) for rank in range(self.ranks)]
            self.is_stuck = self.is_stuck or (self.through < self.ranks and others == [seen] * self.ranks)


class Tried(ulfm.Rank):
    """A rank that may be stopped by plan, and tells its run whether it can move."""
    run, stop_at, calls, seen, has_begun = None, None, 0, None, False

    def begin(self, call):
        self.run.change(self.number)
        self.calls, self.has_begun = self.calls + 1, True
        if self.calls == self.stop_at:
            raise Stop(call)

    def rest(self, moved):
        if self.run.is_stuck:
            raise Stuck()
        if moved or self.has_begun:
            self.run.change(self.number)
        else:
            self.run.is_idle(self.number, self.seen)
        self.seen, self.has_begun = self.run.changes, False
        super().rest(moved)

    def play(self, program):
        """What came of the rank: its result, or the exception that ended it. It goes on turning until all are through."""
        try:
            came = program(self)
        except Stop as stop:
            came = stop
            self.stop()
        except Exception as error:  # pylint: disable=broad-except
            came = error
            self.stop()
        with self.run.lock:
            self.run.through += 1
        self.has_begun = True
        try:
            while self.run.through < self.run.ranks:
                self.rest(self.number_of("turn"))
        except Stuck as stuck:
            came = came if isinstance(came, Exception) else stuck
        return came


def run_once(program, count, stopped=None, at=None):
    """What came of each rank, and how many calls each made."""
    run, ranks = Run(count), ulfm.world(count, kind=Tried)
    came = [None] * count
    for rank in ranks:
        rank.run, rank.stop_at = run, at if rank.number == stopped else None
    threads = [threading.Thread(target=lambda rank=rank: came.__setitem__(rank.number, rank.play(program))) for rank in ranks]
    for thread in threads:
        thread.start()
    for thread in threads:
        thread.join()
    for rank in ranks:
        rank.end()
    return came, [rank.calls for rank in ranks]


def try_place(program, is_right, count, stopped, at):
    """What is wrong of a place, or nothing."""
    came, calls = run_once(program, count, stopped, at)
    if any(isinstance(one, Stuck) for one in came):
        return "nobody can move"
    wrong = [rank for rank, one in enumerate(came) if rank != stopped and (isinstance(one, Exception) or not is_right(one))]
    if calls[stopped] < at:
        return "not reached"
    return f"rank {wrong[0]} ended with {came[wrong[0]]!r}" if wrong else None


def every_stop(program, is_right, count, jobs=4):
    """Tries each place, in `jobs` processes, and prints those that aren't right. Whether all are."""
    came, calls = run_once(program, count)
    if any(isinstance(one, Exception) or not is_right(one) for one in came):
        print(f"without a stop: {came}")
        return False
    places = [(rank, at) for rank in range(count) for at in range(1, calls[rank] + 1)]
    right = 0
    with concurrent.futures.ProcessPoolExecutor(jobs) as pool:
        tried = [pool.submit(try_place, program, is_right, count, *place) for place in places]
        for (rank, at), future in zip(places, tried):
            wrong = future.result()
            right += not wrong
            if wrong:
                print(f"{rank}@{at}: {wrong}", flush=True)
    print(f"{right} of {len(places)} places right")
    return right == len(places)
