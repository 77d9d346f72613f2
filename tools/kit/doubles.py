"""Doubles of functions in a copy of a crate: a function once more beside itself, by another name and with the same clauses and proof, so that
several wrong bodies of one function are tried by one check."""
import re
import shutil

from kit import unproved


def text_of(crate, path):
    """A function of a crate's folder with its attributes and comments, or nothing where none has a body and that path."""
    it = next((it for it in unproved.functions(crate) if "::".join(it.path) == path), None)
    return "\n".join(it.file.read_text().split("\n")[it.first : it.end + 1]) if it else ""


def double_proof(crate, path, name):
    """Copies a function's proof, and those of its closures, for its double."""
    *above, own = path.split("::")
    for folder in (above, [*above, "fn"]):
        old, new = crate.joinpath("proofs", *folder, own), crate.joinpath("proofs", *folder, name)
        if old.is_dir():
            shutil.copytree(old, new)
        module = r"\.".join(["proofs", *folder])
        for file in new.rglob("*.antt"):
            text = re.sub(rf"\b({module}\.){own}\b", rf"\g<1>{name}", file.read_text())
            file.write_text(re.sub(rf"\b{own}_spec\b", f"{name}_spec", text))


def add(crate, path, name, text):
    """Writes the text of a function behind it, as a function of another name, with the proof that it has."""
    it = next(it for it in unproved.functions(crate) if "::".join(it.path) == path)
    lines = it.file.read_text().split("\n")
    lines[it.end + 1 : it.end + 1] = ["", re.sub(rf"\bfn {it.path[-1]}\b", f"fn {name}", text, count=1)]
    it.file.write_text("\n".join(lines))
    double_proof(crate, path, name)
