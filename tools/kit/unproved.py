"""Leaves functions of a copy of a crate unproved, so that a check of others takes less time: these are looked at by the clauses of what they
call, which stay. Of the rest the prover gets a body that never ends and a file that has no proof, and refuses both at once."""
import re
import shutil
from dataclasses import dataclass
from pathlib import Path

BEGIN = re.compile(r'( *)(?:pub(?:\([a-z]+\))? )?(?:unsafe )?(?:extern "C" )?fn (\w+)')
TYPE = re.compile(r"^(?:pub(?:\([a-z]+\))? )?(?:struct|enum) (\w+)", re.MULTILINE)
# What names the cycle of calls that a function is in.
CYCLE = re.compile(r"#\[cycle\((\w+)\)\]")
# The proof file of a function that is left unproved: without the name of a proof it is refused at once.
PROOF = "-- left unproved\n"


@dataclass
class Function:
    """A function with a body: its file, its first line, comments and attributes too, the first of the body and the one behind it, and its
    path below the crate."""

    file: Path
    first: int
    begin: int
    end: int
    path: list


def path_of(begin, block, module, types):
    """The path of a function that begins so, as the prover names it, or None of a method of a trait. `block` is the item that it stands in."""
    if not begin[1]:
        return [*module, begin[2]]
    of_type = re.fullmatch(r"impl(?:<.*>)? (\w+)(?:<.*>)? \{", block)
    return [*types[of_type[1]], of_type[1], begin[2]] if of_type and of_type[1] in types and begin[1] == "    " else None


def first_of(lines, at, indent):
    """The line at which a function begins whose 'fn' stands at one: its comments and attributes stand above that."""
    while at and lines[at - 1] and lines[at - 1].startswith(indent) and not lines[at - 1].endswith("{"):
        at -= 1
    return at


def functions(crate):
    """The functions of a crate's folder that have a path and a body, as 'rt fmt' writes them."""
    source = crate / "src"
    modules = {file: [it for it in file.relative_to(source).with_suffix("").parts if it != "lib"] for file in source.rglob("*.rt")}
    types = {name: module for file, module in modules.items() for name in TYPE.findall(file.read_text())}
    for file, module in modules.items():
        lines, block = file.read_text().split("\n"), ""
        for at, line in enumerate(lines):
            block = line if line and not line.startswith(" ") else block
            begin = BEGIN.match(line)
            opens = begin and re.compile(rf"{begin[1]}(\{{|\S.* \{{)$")
            opening = next((it for it in range(at, len(lines)) if opens.match(lines[it]) or lines[it].endswith((";", "{}"))), None) if begin else None
            path = path_of(begin, block, module, types) if opening is not None and opens.match(lines[opening]) else None
            if path:
                yield Function(file, first_of(lines, at, begin[1]), opening + 1, lines.index(f"{begin[1]}}}", opening), path)


def cycles_of(function, lines):
    """The cycles that a function's attributes name, as a file, a folder of proofs and a name."""
    named = (CYCLE.fullmatch(line.strip()) for line in lines[function.first : function.begin])
    return {(function.file, tuple(function.path[:-1]), it[1]) for it in named if it}


def break_up(folder, cycle):
    """Leaves a cycle of calls that is none any more: its attributes, which the prover refuses there, and its proof."""
    file, above, name = cycle
    lines = file.read_text().split("\n")
    file.write_text("\n".join(it for it in lines if it.strip() != f"#[cycle({name})]"))
    shutil.rmtree(folder.joinpath("proofs", *above, f"+{name}"), ignore_errors=True)


def leave(folder, kept):
    """Leaves all functions of a crate's copy unproved, but methods of traits and those whose paths are kept."""
    broken = set()
    for it in sorted(functions(folder), key=lambda it: it.begin, reverse=True):
        if "::".join(it.path) in kept:
            continue
        lines = it.file.read_text().split("\n")
        broken |= cycles_of(it, lines)
        lines[it.begin : it.end] = ["    loop {}"]
        it.file.write_text("\n".join(lines))
        proofs = folder.joinpath("proofs", *it.path)
        shutil.rmtree(folder.joinpath("proofs", *it.path[:-1], "fn", it.path[-1]), ignore_errors=True)
        proofs.mkdir(parents=True, exist_ok=True)
        for old in ("Answers.antt", "Invariants.antt"):
            (proofs / old).unlink(missing_ok=True)
        (proofs / "Proof.antt").write_text(PROOF)
    for cycle in broken:
        break_up(folder, cycle)
