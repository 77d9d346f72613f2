"""Heat in a rod by Jacobi's method, as heat.c, in Python over ulfm.py. A rank may stop anywhere: the others go on from the copies that neighbours keep.

    python3 heat.py                    four ranks, each a thread
    python3 heat.py --stop 2@17        rank 2 stops at its 17th call
    python3 heat.py --every-stop       once for each call of each rank

In a round each rank makes some steps, gives its block to its right neighbour, and agrees whether all did. Who meets an error revokes first, so that no
other waits for it: --no-revoke shows what comes without. The last agreement is made before anybody leaves.
"""
import argparse
import functools
import sys
from array import array

import every_stop
import ulfm

CELLS, STEPS, STEPS_A_ROUND, RANKS = 60, 12, 4, 4
RIGHT, LEFT, COPY, UP, DOWN = 1, 2, 3, 4, 5
ROOM = 8 * (CELLS + 2)


class Heat:
    """The work of one rank."""

    def __init__(self, rank, revokes):
        self.rank, self.revokes = rank, revokes
        self.rod, self.step, self.heat = array("d", [100] + [0] * (CELLS + 1)), 0, None
        self.use(0)
        # The start is known without a copy: all cells are 0.
        self.commit(self.saved(array("d", [0] * len(self.block(self.me - 1)))))

    def use(self, comm):
        self.comm, self.me = comm, self.rank.position(comm)
        self.members = self.rank.group(comm)

    def block(self, position):
        """The cells of a position, which counts around."""
        size = len(self.members)
        position %= size
        return range(1 + CELLS * position // size, CELLS * (position + 1) // size + 1)

    def trade(self, tag, cells, dest, source):
        """Sends some numbers to one position and gets some of another, where there is one."""
        size = len(self.members)
        request = self.rank.irecv(self.comm, source, tag, ROOM) if 0 <= source < size else None
        if 0 <= dest < size:
            self.rank.isend(self.comm, dest, tag, cells.tobytes())
        return None if request is None else array("d", self.rank.wait(request, ROOM))

    def make_step(self):
        """The cells beside the block come from the neighbours, then each cell becomes the mean of its own."""
        first, last = self.block(self.me)[0], self.block(self.me)[-1]
        before = self.trade(RIGHT, self.rod[last:last + 1], self.me + 1, self.me - 1)
        behind = self.trade(LEFT, self.rod[first:first + 1], self.me - 1, self.me + 1)
        self.rod[first - 1] = before[0] if before else 100
        self.rod[last + 1] = behind[0] if behind else 0
        self.rod[first:last + 1] = array("d", [(self.rod[k - 1] + self.rod[k + 1]) / 2 for k in self.block(self.me)])
        self.step += 1

    def saved(self, copy):
        """What is to be committed: the own block and the left neighbour's, and who had which."""
        own, left = self.block(self.me), self.block(self.me - 1)
        return {"step": self.step, "own": own, "cells": self.rod[own[0]:own[-1] + 1], "left": left, "copy": copy, "members": self.members, "me": self.me}

    def save(self):
        own, size = self.block(self.me), len(self.members)
        return self.saved(self.trade(COPY, self.rod[own[0]:own[-1] + 1], (self.me + 1) % size, (self.me - 1) % size))

    def commit(self, saved):
        self.committed = saved

    def sum(self, numbers):
        """The sums over all, by position 0."""
        size, body = len(self.members), array("d", numbers)
        if self.me:
            self.rank.isend(self.comm, 0, UP, body.tobytes())
            return array("d", self.rank.wait(self.rank.irecv(self.comm, 0, DOWN, ROOM), ROOM))
        for other in range(1, size):
            came = array("d", self.rank.wait(self.rank.irecv(self.comm, other, UP, ROOM), ROOM))
            body = array("d", [one + two for one, two in zip(body, came)])
        for other in range(1, size):
            self.rank.isend(self.comm, other, DOWN, body.tobytes())
        return body

    def restore(self):
        """All get the whole rod of the committed step: each gives its block, and the one of a left neighbour that is lost."""
        part, committed = array("d", [0] * (CELLS + 2)), self.committed
        part[committed["own"][0]:committed["own"][-1] + 1] = committed["cells"]
        part[0] = len(committed["own"])
        if committed["members"][committed["me"] - 1] not in self.members:
            part[committed["left"][0]:committed["left"][-1] + 1] = committed["copy"]
            part[0] += len(committed["left"])
        whole = self.sum(part)
        if whole[0] != CELLS:
            raise RuntimeError("two neighbours are lost, and with them a block")
        self.rod[1:CELLS + 1] = whole[1:CELLS + 1]
        self.step = committed["step"]

    def all_did(self, work):
        """All agree whether all did their work without an error: what it gave, and whether they did. Each makes one agreement, whatever it met."""
        try:
            made, did = work(), 1
        except ulfm.Error as error:
            if error.code not in (ulfm.PROC_FAILED, ulfm.REVOKED):
                raise
            made, did = None, 0
            if self.revokes:
                self.rank.revoke(self.comm)
        flag, missing = self.rank.agree(self.comm, did)
        return made, flag == 1 and not missing

    def recover(self):
        """A communicator of those that run, where all have the rod of the committed step."""
        while True:
            self.use(self.rank.shrink(self.comm))
            if self.all_did(self.restore)[1]:
                return

    def make_round(self):
        """Some steps, a copy for the neighbour, and in the last round the result."""
        for _ in range(STEPS_A_ROUND):
            self.make_step()
        saved = self.save()
        if self.step == STEPS:
            self.heat = self.sum([sum(saved["cells"])])[0]
        return saved

    def solve(self):
        while self.committed["step"] < STEPS:
            saved, is_well = self.all_did(self.make_round)
            if is_well:
                self.commit(saved)
            else:
                self.recover()
        return self.heat


def solve(revokes, rank):
    return Heat(rank, revokes).solve()


def heat_alone():
    """The heat as one rank alone computes it, for comparison."""
    rod = [100.0] + [0.0] * (CELLS + 1)
    for _ in range(STEPS):
        rod = [100.0] + [(rod[k - 1] + rod[k + 1]) / 2 for k in range(1, CELLS + 1)] + [0.0]
    return sum(rod[1:-1])


def is_right(heat):
    return abs(heat - heat_alone()) < 1e-9


def main():
    parser = argparse.ArgumentParser(description=__doc__, formatter_class=argparse.RawDescriptionHelpFormatter)
    parser.add_argument("--stop", help="R@K: rank R stops at its K-th call")
    parser.add_argument("--every-stop", action="store_true")
    parser.add_argument("--no-revoke", action="store_true")
    parser.add_argument("--jobs", type=int, default=4)
    words = parser.parse_args()
    program = functools.partial(solve, not words.no_revoke)
    if words.every_stop:
        return not every_stop.every_stop(program, is_right, RANKS, words.jobs)
    came, _ = every_stop.run_once(program, RANKS, *map(int, words.stop.split("@") if words.stop else []))
    for rank, one in enumerate(came):
        print(f"rank {rank}: " + (f"heat after {STEPS} steps: {one:.6f}" if isinstance(one, float) else repr(one)))
    return any(not isinstance(one, (float, every_stop.Stop)) for one in came)


if __name__ == "__main__":
    sys.exit(main())
