"""Made-up jobs: small ones, with what schedules can turn: stops, full inboxes, revocations, shrinks, agreements, receives and probes
from any source, cancels, duplicates and acknowledgements; some with further duplicates and shrinks of one communicator, and steps on what these
made, by its name."""

from . import reacting
from .toml_text import job_text

MOST_STEPS = 12
FLAGS = [0, 3, 5, 6, 7, 12, 4294967295]


class Maker:
    """Makes one job, piece by piece, out of a source of chance. Further duplicates and shrinks are there where they have a source of their own."""

    def __init__(self, chance, of_more=None):
        self.chance = chance
        self.of_more = of_more
        self.ranks = chance.choice([2, 3, 3, 3, 4])
        self.capacity = chance.choice([1, 1, 1, 2])
        self.steps = []
        self.comms = {rank: [0] for rank in range(self.ranks)}

    def add(self, rank, op, **keys):
        """One more step, whose number of its rank this gives. A name that the rank has no step of is none of its communicators."""
        comm = keys.get("comm", 0)
        if comm == 0 or isinstance(comm, str) and not any(one == rank and more.get("name") == comm for one, _, more in self.steps):
            keys.pop("comm", None)
        self.steps.append((rank, op, keys))
        return sum(1 for step in self.steps if step[0] == rank) - 1

    def rank(self):
        return self.chance.randrange(self.ranks)

    def comm(self, rank):
        """A communicator that the rank asked for, the latest one as a rule."""
        return self.chance.choice(self.comms[rank][-2:])

    def send(self, sender=None, to=None, tag=None, comm=None):
        sender = self.rank() if sender is None else sender
        to = self.rank() if to is None else to
        tag = self.chance.randrange(2) if tag is None else tag
        self.add(sender, "send", to=to, tag=tag, body=chr(97 + len(self.steps)), comm=self.comm(sender) if comm is None else comm)

    def recv(self, rank=None, source=None, tag=None, comm=None):
        rank = self.rank() if rank is None else rank
        keys = {"comm": self.comm(rank) if comm is None else comm}
        if self.chance.random() < 0.5:
            keys["from"] = self.rank() if source is None else source
        if self.chance.random() < 0.3:
            keys["tag"] = self.chance.randrange(2) if tag is None else tag
        if self.chance.random() < 0.05:
            keys["room"] = 0
        return rank, self.add(rank, "recv", **keys)

    def letter(self):
        """A send and a receive that is waited for, in some order. Now and then nothing is sent."""
        sender, to, tag = self.rank(), self.rank(), self.chance.randrange(2)
        comm = self.comm(sender)
        order = self.chance.choice(["before", "before", "behind", "behind", "both", "never"])
        if order in ("before", "both"):
            self.send(sender, to, tag, comm)
        number = self.recv(to, sender, tag, comm)[1]
        if order in ("behind", "both"):
            self.send(sender, to, tag, comm)
        self.add(to, "wait", req=number)

    def receive(self):
        rank, number = self.recv()
        if self.chance.random() < 0.8:
            self.add(rank, "wait", req=number)

    def probe(self):
        """A letter, and a probe that may find it, with a receive of what it finds. Now and then another receive stands between."""
        sender, to, tag = self.rank(), self.rank(), self.chance.randrange(2)
        comm = self.comm(sender)
        self.send(sender, to, tag, comm)
        keys = {"comm": comm}
        if self.chance.random() < 0.5:
            keys["from"] = sender
        if self.chance.random() < 0.3:
            keys["tag"] = tag
        number = self.add(to, "probe", **keys)
        if self.chance.random() < 0.3:
            self.recv(to, sender, tag, comm)
        self.add(to, "mrecv", req=number, **({"room": 0} if self.chance.random() < 0.1 else {}))

    def named(self, op, ops):
        """A step with this op, which names a step with one of these."""
        posts = [(step[0], at) for at, step in enumerate(self.steps) if step[1] in ops]
        if posts:
            rank, at = self.chance.choice(posts)
            self.add(rank, op, req=sum(1 for step in self.steps[:at] if step[0] == rank))

    def cancel(self):
        """A cancel of a receive, new or old, now and then of a probe."""
        if self.chance.random() < 0.5:
            self.recv()
        self.named("cancel", ["recv", "probe"])

    def wait_again(self):
        self.named("wait", ["recv"])

    def again(self):
        """The key of a step that asks for a further communicator, now and then."""
        return {"again": True} if self.of_more and self.of_more.random() < 0.7 else {}

    def child(self, comm, number):
        """The first duplicate or shrink of a communicator by its number, or that one, where it has a name, whose child has none."""
        return comm if isinstance(comm, str) else 2 * comm + number

    def further(self):
        """Duplicates or shrinks of one communicator in a row, by all or by some, with names for later steps; now and then one of them is revoked by
        its name."""
        op, comm = self.of_more.choice(["dup", "shrink", "shrink"]), self.comm(self.rank())
        for _ in range(self.of_more.choice([1, 2])):
            name = f"made-{len(self.steps)}"
            for rank in range(self.ranks):
                if self.of_more.random() < 0.95:
                    self.add(rank, op, comm=comm, again=self.of_more.random() < 0.9, name=name)
                    self.comms[rank].append(name)
            if self.of_more.random() < 0.3:
                self.add(self.rank(), "revoke", comm=name)

    def shrink(self):
        """A shrink by all or by some. Who stopped before takes no part."""
        comm = self.comm(self.rank())
        for rank in range(self.ranks):
            if self.chance.random() < 0.9:
                self.add(rank, "shrink", comm=comm, **self.again())
                self.comms[rank].append(self.child(comm, 2))

    def agree(self):
        """An agreement by all or by some, now and then on what was revoked just before, and another one on the same communicator,
        before which a rank may stop."""
        comm = self.comm(self.rank())
        if self.chance.random() < 0.2:
            self.add(self.rank(), "revoke", comm=comm)
        self.agree_by_some(comm)
        if self.chance.random() < 0.3:
            if self.chance.random() < 0.4:
                self.add(self.rank(), "stop")
            self.agree_by_some(comm)

    def agree_by_some(self, comm):
        for rank in range(self.ranks):
            if self.chance.random() < 0.9:
                self.add(rank, "agree", flag=self.chance.choice(FLAGS), comm=comm)

    def dup(self):
        comm = self.comm(self.rank())
        for rank in range(self.ranks):
            if self.chance.random() < 0.6:
                self.add(rank, "dup", comm=comm, **self.again())
                self.comms[rank].append(self.child(comm, 1))

    def late_letter(self):
        """A letter of a rank that stops, and one of a rank that knows of the stop, both for any receive of a third."""
        if self.ranks < 3 or self.steps:
            return
        first, second, third = self.chance.sample(range(self.ranks), 3)
        self.send(first, third)
        self.add(first, "stop")
        self.add(second, "wait", req=self.recv(second, first)[1])
        self.send(second, third)
        for _ in range(2):
            self.add(third, "wait", req=self.recv(third, first)[1])

    def of_comm(self, op, **keys):
        rank = self.rank()
        self.add(rank, op, comm=self.comm(rank), **keys)

    def note(self):
        self.add(self.rank(), "note", text=self.chance.choice(["a place", "it-2.0"]))

    def piece(self):
        """One more piece of the job."""
        pieces = [
            (8, self.letter), (3, self.send), (3, self.receive), (2, self.wait_again), (3, self.shrink), (3, self.agree), (1, self.dup),
            (2, lambda: self.of_comm("revoke")), (1, lambda: self.of_comm("failed")),
            (2, lambda: self.of_comm("ack", count=self.chance.randrange(1, 3))), (3, lambda: self.add(self.rank(), "stop")),
            (4, self.late_letter), (4, self.probe), (3, self.cancel), (1, self.note),
        ]
        if self.of_more:
            pieces.append((25, self.further))
        self.chance.choices([piece for _, piece in pieces], [weight for weight, _ in pieces])[0]()

    def text(self):
        while len(self.steps) < MOST_STEPS - 3:
            self.piece()
        return job_text(self.ranks, self.capacity, self.steps[:MOST_STEPS])

    def text_of_reacting(self, chance):
        """A made-up job with names, conditions and expectations."""
        self.text()
        self.steps = reacting.reacting(chance, self.steps[:MOST_STEPS])
        return job_text(self.ranks, self.capacity, self.steps)


def made_up(chance, of_reactions=None, of_more=None):
    """The text of a made-up job: one that reacts, and one with further duplicates and shrinks, where there is a source of chance for that."""
    maker = Maker(chance, of_more)
    return maker.text_of_reacting(of_reactions) if of_reactions else maker.text()
