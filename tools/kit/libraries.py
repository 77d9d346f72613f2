"""The crates below one, and their libraries of statements, crates/*/out/statements: 'tools/kit/build' makes them, and 'tools/gate/test' takes those
that 'rt ci' made."""
import functools
import hashlib
import os
import pathlib
import re
import shutil
import subprocess

import kit

ROOT = pathlib.Path(__file__).resolve().parents[2]
# The folders of a crate's files.
PARTS = ("src", "specs", "proofs")


def crates(*words):
    """The crates that 'tools/kit/crates' names, lowest first."""
    return subprocess.run([ROOT / "tools/kit/crates", *words], stdout=subprocess.PIPE, text=True, check=True).stdout.split()


@functools.lru_cache(maxsize=None)
def below(crate):
    """The crates that one stands on, lowest first."""
    return crates("below", crate)[:-1]


def listed(crate):
    """What a crate stands on, the kit's libraries too, as crates.txt says it."""
    return re.search(rf"^{crate}\b[^:\n]*:([^#\n]*)", (ROOT / "crates.txt").read_text(), re.M)[1].split()


def folder(crate):
    return ROOT / "crates" / crate


def files(crate):
    """The files of a crate: its code, its definitions and its proofs."""
    return sorted(it for part in PARTS for it in (folder(crate) / part).rglob("*") if it.is_file())


def sources(crate):
    """A sum over what a crate is made of: what it stands on, and its files."""
    total = hashlib.sha256(" ".join(listed(crate)).encode())
    for file in files(crate):
        total.update(f"\n{file.relative_to(folder(crate))}\n".encode() + hashlib.sha256(file.read_bytes()).digest())
    return total.hexdigest()


def own(crate):
    """A crate's library of statements."""
    return folder(crate) / "out/statements" / f"{crate}.rlib"


def of_kit(name):
    return kit.root() / "rlibs" / f"{name}.rlib"


def note(crate):
    """Where the sum of what a crate's library was made of is noted. While a library is made, there is none."""
    return own(crate).with_name("sources")


def keep(crate, made_of, begun):
    """Notes what a crate's library was made of, unless that was edited since then. The library is as old as the beginning of its build."""
    os.utime(own(crate), (begun, begun))
    if sources(crate) == made_of:
        note(crate).write_text(made_of)


def take_from_gate(crate, made_of, begun):
    """Moves the library that 'rt ci' made, if it made one, to where the crate's own stands. In its old place 'rt' makes ones with proofs."""
    made = folder(crate) / "out/rlib" / f"{crate}.rlib"
    if made.exists():
        shutil.rmtree(own(crate).parent, ignore_errors=True)
        own(crate).parent.mkdir(exist_ok=True)
        made.rename(own(crate))
        keep(crate, made_of, begun)


@functools.lru_cache(maxsize=None)
def said_by(file, _written):
    """What the file 'format' of a library says, which was written then: the sum by which those that were made over the library name it, and
    what it was made over itself, by names and sums."""
    text = file.read_bytes()
    own_sum = hashlib.sha256(re.sub(rb"(?m)^facade-compared.*\n", b"", text)).hexdigest()
    return own_sum, dict(re.findall(r"^over (\w+) (\w+)$", text.decode(), re.M))


def sum_and_over(library):
    """The sum of a library, and those of what it was made over. None where it isn't there."""
    file = library / "format"
    return said_by(file, file.stat().st_mtime_ns) if file.exists() else (None, {})


def is_young(crate):
    """Whether a crate's library was made of the files that stand here now, and over the libraries that do. What a library holds, and not
    when it was made, says whether those above fit it."""
    if not note(crate).exists() or note(crate).read_text() != sources(crate):
        return False
    _, over = sum_and_over(own(crate))
    return bool(over) and all(sum_and_over(own(it) if it in below(crate) else of_kit(it))[0] == total for it, total in over.items())


def are_young_below(crate):
    """Whether the libraries of all crates below one are young."""
    return all(map(is_young, below(crate)))


def is_built(crate, target):
    """Whether a program or an archive of a crate is as new as its files and those below, by 'tools/kit/is-built', and as their libraries."""
    is_there = subprocess.run([ROOT / "tools/kit/is-built", crate, target.name], check=False).returncode == 0
    return is_there and all(own(it).stat().st_mtime <= target.stat().st_mtime for it in below(crate))


def words_over(crate):
    """The words with which the kit calls its compiler for a crate, over the libraries of the crates below."""
    root, under = kit.root(), below(crate)
    uses = [word for it in ["std", *listed(crate)] for word in ("--extern", f"{it}={own(it) if it in under else of_kit(it)}")]
    folders = [word for at in [root / "rlibs", *(own(it).parent for it in under)] for word in ("-L", f"dependency={at}")]
    return ["--crate-name", crate, *uses, *folders, "--antt-project", root / "rattle/logic/antt-project.json",
            "--logic-built", root / "logic_built", "--links", f"{crate}="]
