"""Builds the explorer of all outcomes, and hands jobs over to it in their plain form: `<ranks> <capacity>`, then a line a step. In it
steps are named by numbers alone, an op that says `again` ends with `-again`, and a communicator by name is the number of the step that makes it, `=`,
and the name in hexadecimal digits. A step ends with its conditions:
`<alternative> <step> <is or not> <words>` for each, the words in hexadecimal digits and parted by commas."""
import collections
import os
import pathlib
import shutil
import subprocess

from . import holding

FOLDER = pathlib.Path(__file__).resolve().parent
PROGRAM = FOLDER / "out" / "explorer"
LONGEST_KEPT = 1025
# How the answers begin with which a step goes well.
GOOD = {
    "send": ["sent"], "recv": ["posted"], "wait": ["done"], "probe": ["found"], "mrecv": ["done"], "cancel": ["cancelled", "done"],
    "failed": ["ranks"], "ack": ["acked"], "revoke": ["revoked"], "dup": ["comm"], "shrink": ["comm"], "agree": ["agreed"], "note": ["noted"],
    "stop": ["stopped"],
}


def compiler():
    """Rust's compiler, where there is one."""
    own = pathlib.Path.home() / ".cargo" / "bin" / "rustc"
    return shutil.which("rustc") or (str(own) if os.access(own, os.X_OK) else None)


def missing():
    """What isn't on this machine and has to be, or nothing."""
    try:
        import tomllib  # noqa: F401
    except ImportError:
        return "tomllib for this Python"
    return None if compiler() else "rustc"


def build():
    """The explorer, built anew where a source is newer."""
    sources = sorted(FOLDER.glob("*.rs"))
    newest = max(source.stat().st_mtime for source in sources)
    if not PROGRAM.exists() or PROGRAM.stat().st_mtime < newest:
        PROGRAM.parent.mkdir(exist_ok=True)
        fresh = PROGRAM.with_name(f"explorer-{os.getpid()}")
        subprocess.run([compiler(), "-O", "--edition", "2021", "-o", fresh, FOLDER / "main.rs"], check=True)
        fresh.replace(PROGRAM)
    return PROGRAM


def words_of(step, number_of):
    """The words of a step, in the plain form."""
    op, comm = step["op"], step.get("comm", 0)
    if isinstance(comm, str):
        comm = f"{number_of(comm)}={comm.encode().hex()}"
    if op == "send":
        body = step["body"].encode()[:LONGEST_KEPT].hex() or "-"
        return [op, step["to"], step["tag"], body, comm]
    if op == "recv":
        return [op, step.get("from", "any"), step.get("tag", "any"), step.get("room", 1024), comm]
    if op == "probe":
        return [op, step.get("from", "any"), step.get("tag", "any"), comm]
    if op in ("wait", "cancel"):
        return [op, number_of(step["req"])]
    if op == "mrecv":
        return [op, number_of(step["req"]), step.get("room", 1024)]
    if op == "ack":
        return [op, step["count"], comm]
    if op == "agree":
        return [op, step["flag"], comm]
    if op in ("dup", "shrink") and step.get("again"):
        return [f"{op}-again", comm]
    if op == "note":
        return [op, step["text"].encode().hex()]
    return [op] if op == "stop" else [op, comm]


def conditions_of(step, number_of):
    """Each condition of a step, in the plain form."""
    tables = step.get("if", [])
    found = []
    for alternative, table in enumerate([tables] if isinstance(tables, dict) else tables):
        for one in table.get("all", [table]):
            key = "is" if "is" in one else "not"
            found += [alternative, number_of(one["step"]), key, ",".join(words.encode().hex() for words in one[key])]
    return found


def further(text, ranks):
    """How many ranks further on the rank is that a text names, where it names one."""
    named = {"me": 0, "left": ranks - 1, "right": 1, **{f"me+{n}": n for n in range(1, 8)}}
    return named.get(text) if isinstance(text, str) else None


def ranks_of(step, ranks):
    """The ranks of a step that is for several, or none."""
    rank = step.get("rank")
    if rank == "all":
        return list(range(ranks))
    are_numbers = isinstance(rank, list) and all(type(one) is int for one in rank)
    return rank if are_numbers else []


def placed(step, ranks):
    """A step with the numbers of the ranks that its `to` and its `from` name."""
    found = dict(step)
    if type(step.get("rank")) is int:
        for key in ("to", "from"):
            more = further(step.get(key), ranks)
            if more is not None:
                found[key] = (max(step["rank"], 0) + more) % ranks
    return found


def for_ranks(steps, ranks):
    """Steps, each for the ranks that it is for."""
    return [placed(one, ranks) for step in steps for one in [{**step, "rank": rank} for rank in ranks_of(step, ranks)] or [step]]


def iterated(step, block, i):
    """A step of a block in an iteration."""
    own = {one["name"] for one in block if one["rank"] == step["rank"] and "name" in one}

    def referred(name):
        return f"{name}-{i}" if name in own else name

    def condition(table):
        if "all" in table:
            return {**table, "all": [condition(one) for one in table["all"]]}
        return {**table, "step": referred(table["step"])}

    found = {key: f"{text}-{i}" if key in ("name", "body", "text") else text for key, text in step.items()}
    if isinstance(step.get("tag"), str):
        found["tag"] = i + int(step["tag"].removeprefix("i").removeprefix("+") or 0)
    for key in ("req", "comm"):
        if key in step:
            found[key] = referred(step[key])
    if "if" in step:
        found["if"] = condition(step["if"]) if isinstance(step["if"], dict) else [condition(table) for table in step["if"]]
    return found


def item_steps(item, ranks):
    """The steps of an item of a job: of a block all, in each of its iterations."""
    block = for_ranks(item.get("steps", [item]), ranks)
    return [iterated(step, block, i) for i in range(item["repeat"]) for step in block] if "repeat" in item else block


def guards(lines, step):
    """The lines whose answers tell whether a step is played: those of its rank whose goal isn't reached, of each goal from the last one back
    to the first that has no `if` of its own. A line is a step and the goal of its item, and the number that the step has of its rank."""
    found, closed = [], {step.get("name")}
    for line in reversed([line for line in lines if line[0]["rank"] == step["rank"]]):
        before, goal, _ = line
        if goal is not None and goal not in closed:
            found.insert(0, line)
            if "if" not in before:
                closed.add(goal)
        closed.add(before.get("name"))
    return found


def guarded(lines, step):
    """A step that is played only where its guards were answered well, or were skipped by an `if` of their own."""
    asked = [{"step": number, "is": GOOD[before["op"]] + ["skipped"] * ("if" in before)} for before, _, number in guards(lines, step)]
    own = step.get("if", {"all": []})
    alternatives = [{"all": one.get("all", [one]) + asked} for one in ([own] if isinstance(own, dict) else own)]
    return {**step, "if": alternatives} if asked else step


def written_out(job):
    """The steps of a job: those of its blocks in each iteration, one for each rank that they are for, and with the conditions by which an
    error leads on."""
    lines, counts = [], collections.Counter()
    for item in job.get("step", []):
        for step in item_steps(item, job["ranks"]):
            lines.append((step, item.get("on_error"), counts[step["rank"]]))
            counts[step["rank"]] += 1
    for number, (step, _, _) in enumerate(lines):
        yield guarded(lines[:number], step)


def numbered(job):
    """The steps of a job, written out, with their numbers of their rank, and for each the number of an earlier step by its number or its name."""
    counts, names = collections.Counter(), collections.defaultdict(dict)
    for step in written_out(job):
        rank = step["rank"]
        before = dict(names[rank])
        yield step, counts[rank], lambda of, before=before: before[of] if isinstance(of, str) else of
        if "name" in step:
            names[rank][step["name"]] = counts[rank]
        counts[rank] += 1


def read(text):
    """The job of a text."""
    import tomllib

    return tomllib.loads(text)


def steps(text):
    """The rank, the number and the op of each step of a job's text."""
    return [(step["rank"], number, step["op"]) for step, number, _ in numbered(read(text))]


def begins(answer, words):
    """Whether an answer begins, by whole words, with these."""
    return answer == words or answer.startswith(words + " ")


def places_of_names(job):
    """The rank, the number, the op and the name, if it has one, of each step of a job."""
    return [(step["rank"], number, step["op"], step.get("name")) for step, number, _ in numbered(job)]


def expected(text, place="-"):
    """What each step of a job's text expects of its answer at a place, where it expects anything, by rank and number."""
    job = read(text)
    steps = [((step["rank"], number), *holding.parts(step["expect"], "is")) for step, number, _ in numbered(job) if "expect" in step]
    return {at: words for at, words, name in steps if holding.holds(places_of_names(job), place, name)}


def over_ranks(row, ranks, named):
    """The rows for which one stands: `all` is one rank, and `any` another, that have steps of the names that it says."""
    parts = [text.split(".", 1) for text in row]
    words = {word for word, _ in parts} & {"all", "any"}
    found = []
    for first in range(ranks if words else 0):
        for second in range(ranks):
            given = {"all": first, "any": second}
            is_there = all((given[word], rest.split(" ", 1)[0]) in named for word, rest in parts if word in given)
            if is_there and (first != second) == (len(words) == 2):
                found.append([f"{given.get(word, word)}.{rest}" for word, rest in parts])
    return found or [row]


def stands_for(row, text):
    """Whether a row over ranks stands for some of a job's text."""
    job = read(text)
    return over_ranks(row, job["ranks"], {(step["rank"], step["name"]) for step, _, _ in numbered(job) if "name" in step}) != [row]


def rows_named(job):
    """The rows of `never` of a job, written out for ranks, by the numbers of steps, each with the name before whose steps it holds alone."""
    named = {(rank, name): number for rank, number, _, name in places_of_names(job) if name is not None}
    for row in job.get("never", []):
        texts, before = holding.parts(row, "row")
        for one in over_ranks(texts, job["ranks"], named):
            yield [by_number(answer, named) for answer in one], before


def rows(text):
    """These rows of a job's text, without these names."""
    return [row for row, _ in rows_named(read(text))]


def rows_at(text, place):
    """The numbers of those of these rows that hold at a place."""
    job = read(text)
    return [number for number, (_, before) in enumerate(rows_named(job)) if holding.holds(places_of_names(job), place, before)]


def by_number(answer, named):
    """An answer of a row, by the number of its step."""
    place, words = answer.split(" ", 1)
    rank, step = place.split(".")
    return f"{rank}.{step if step.isdigit() else named[int(rank), step]} {words}"


def is_met(expectations, head, answer):
    """Whether an answer is one that its step expects, by the words before the colon. A skipped step is asked nothing."""
    rank, number = map(int, head.split()[:2])
    words = expectations.get((rank, number))
    return words is None or answer == "skipped" or any(begins(answer, one) for one in words)


def plain(text, stops=None):
    """The plain form of a job's text. A job that the program refuses isn't to be handed in here. `stops` has for a rank the number of the
    step before which it stops, or how many steps it has: there is one more step, by whose number later ones are moved."""
    job, stops = read(text), stops or {}
    lines, lengths = [[job["ranks"], job["capacity"]]], collections.Counter()
    for step, number, number_of in numbered(job):
        rank = step["rank"]
        if stops.get(rank) == number:
            lines.append([rank, "stop"])

        def moved(of, rank=rank, number_of=number_of):
            return number_of(of) + (rank in stops and stops[rank] <= number_of(of))

        lines.append([rank, *words_of(step, moved), *conditions_of(step, moved)])
        lengths[rank] += 1
    lines += [[rank, "stop"] for rank, at in stops.items() if at == lengths[rank]]
    return "\n".join(" ".join(map(str, line)) for line in lines) + "\n"


def has_names(text):
    """Whether a step of a job calls its communicator by a name, which ulfm.h hasn't."""
    return any(isinstance(step.get("comm"), str) for step in written_out(read(text)))


def explore(text, *options, stops=None):
    """The status and the lines of the explorer for a job's text, with these stops."""
    ran = subprocess.run([PROGRAM, *options], input=plain(text, stops), capture_output=True, text=True, check=False)
    if ran.returncode not in (0, 7):
        raise RuntimeError(f"the explorer ended with status {ran.returncode}: {ran.stderr.strip()}")
    return ran.returncode, ran.stdout.splitlines()
