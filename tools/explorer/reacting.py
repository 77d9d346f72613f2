"""Names, conditions and expectations for the steps of made-up jobs."""
import collections

from . import front

# Words with which the answers of an op may begin.
WORDS = {
    "send": ["sent", "refused", "refused 5", "refused 6 Revoked"],
    "recv": ["posted", "refused 6", "refused 1"],
    "wait": ["done", "done from 0", "done from 1", "over", "over 5", "over 6", "pending", "refused 7", "unfinished"],
    "probe": ["found", "found from 0", "found from 1", "refused", "refused 5 ProcFailed", "unfinished"],
    "mrecv": ["done", "done from 0", "refused 7", "over 15"],
    "cancel": ["cancelled", "done", "over", "refused 7 NoRequest"],
    "failed": ["ranks", "ranks []", "ranks [0]", "ranks [1]", "refused 1"],
    "ack": ["acked", "acked 0", "acked 1", "refused 1"],
    "revoke": ["revoked", "refused 1"],
    "dup": ["comm", "refused 6", "refused 8"],
    "shrink": ["comm", "comm 2 ranks [0 1]", "comm 2 ranks [1 2]", "refused", "refused 8", "unfinished"],
    "agree": ["agreed", "agreed 0", "agreed 4 without []", "agreed 3", "refused 1", "unfinished"],
    "note": ["noted"],
    "stop": ["stopped"],
}

# How much more often than another step one of these is asked about: schedules turn their answers.
WEIGHTS = {"wait": 8, "probe": 8, "cancel": 6, "mrecv": 4, "send": 3, "recv": 3, "failed": 3, "ack": 3}


class Reactions:
    """Gives reactions to the steps of a job, out of a source of chance."""

    def __init__(self, chance):
        self.chance = chance
        self.before = collections.defaultdict(list)

    def words(self, op, more=()):
        """One or two words with which answers of an op begin."""
        return self.chance.sample([*WORDS[op], *more], self.chance.choice([1, 1, 2 if len(WORDS[op]) > 1 else 1]))

    def reference(self, rank, number):
        """The number of an earlier step, or its name where it has one."""
        name = self.before[rank][number][1].get("name") if number < len(self.before[rank]) else None
        return name if name and self.chance.random() < 0.7 else number

    def condition(self, rank):
        """A condition about an earlier step."""
        weights = [WEIGHTS.get(op, 1) for op, _ in self.before[rank]]
        number = self.chance.choices(range(len(weights)), weights)[0]
        key = self.chance.choice(["is", "is", "is", "not"])
        return {"step": self.reference(rank, number), key: self.words(self.before[rank][number][0], ["skipped"])}

    def alternative(self, rank):
        """A condition, or two or three that have to hold together."""
        if self.chance.random() < 0.75:
            return self.condition(rank)
        return {"all": [self.condition(rank) for _ in range(self.chance.choice([2, 2, 3]))]}

    def react(self, rank, op, keys):
        """The keys of a step, and others in front of and among them."""
        keys = dict(keys)
        if "req" in keys:
            keys["req"] = self.reference(rank, keys["req"])
        if self.before[rank] and self.chance.random() < (0.8 if op == "stop" else 0.45):
            conditions = [self.alternative(rank) for _ in range(self.chance.choice([1, 1, 2]))]
            keys["if"] = conditions[0] if len(conditions) == 1 else conditions
        if self.chance.random() < 0.3:
            keys["expect"] = self.words(op)
        if self.chance.random() < 0.5:
            keys.setdefault("name", f"step-{len(self.before[rank])}")
        self.before[rank].append((op, keys))
        return rank, op, keys


def reacting(chance, steps):
    """The steps of a job, with reactions."""
    reactions = Reactions(chance)
    found = [reactions.react(*step) for step in steps]
    names = sorted({keys["name"] for _, _, keys in found if "name" in keys})
    for _, _, keys in found:
        if "expect" in keys:
            keys["expect"] = by_place(chance, "is", keys["expect"], names)
    return found


def by_place(chance, key, asked, names):
    """What is asked, every third time only before the steps of one of these names."""
    return {key: asked, "before": chance.choice(names)} if names and chance.random() < 0.35 else asked


def rows(chance, steps):
    """Two rows of two answers for a job of these steps, by rank, number and op, mostly of those that ranks decide together."""
    if len(steps) < 2:
        return []
    weights = [6 if op in ("shrink", "agree") else 1 for _, _, op in steps]
    found = []
    for _ in range(2):
        first, second = chance.choices(steps, weights)[0], chance.choice(steps)
        if first != second:
            found.append([f"{rank}.{number} {chance.choice([*WORDS[op], 'skipped'])}" for rank, number, op in (first, second)])
    return found


def steps_named(text):
    """The steps of a job's text that have a name: their ops, by the name."""
    import tomllib

    found = collections.defaultdict(list)
    for step in tomllib.loads(text).get("step", []):
        if "name" in step:
            found[step["name"]].append(step["op"])
    return found


def rows_over(chance, text):
    """Up to two rows over ranks for a job's text, of steps that have the same op wherever they have the same name."""
    named = {name: ops[0] for name, ops in steps_named(text).items() if len(set(ops)) == 1}
    found = []
    for words in chance.sample([["all", "any"], ["all", "all"], ["any", "all"]], 2 if named else 0):
        names = chance.choices(sorted(named), k=2)
        row = [f"{word}.{name} {chance.choice([*WORDS[named[name]], 'skipped'])}" for word, name in zip(words, names)]
        if front.stands_for(row, text):
            found.append(by_place(chance, "row", row, sorted(steps_named(text))))
    return found
