"""The front pages of crates: the comment at the head of each src/lib.rt, which says what a crate promises, and what it doesn't.

A front page has at most 64 lines, says what is 'Not here', and names each file of the crate, or its folder. Each name between backticks stands in
code or specs, where comments don't count, or is a file. A file belongs to the crate, or to the crate that is named after it. A definition stands in
the file that is named after it: `Flows` in Flow.antt of ulfm_report_laws, if the page has '(`Flows`, Flow.antt of `ulfm_report_laws`)'. Names in
brackets after a call, as in '`push` (`taken`, `pushed`):', are clauses of the crate.
"""
import re

LONGEST = 64
NAME = re.compile(r"`([^`\s]+)`")
# Definitions, their file, and perhaps the crate that has it.
CITED = re.compile(r"((?:`\w+`(?:, | and )?)*),? ?(?:specs/)?(?:inside/)?\b(\w+\.antt)(?: of `(\w+)`)?")
# Clauses behind the call that has them.
CLAUSES = re.compile(r"(?<!\.rt)`\]? \(((?:`(?!ulfm_)\w+`(?:, )?)+)\)(?=[:,])")
SOURCE = re.compile(r"`((?:[\w/]+/)?\w+\.rt)`(?: of `(\w+)`)?")
COMMENT = re.compile(r"//.*|--.*")


def head_of(crate):
    """The front page of a crate, as Markdown."""
    lines = (crate / "src/lib.rt").read_text().splitlines()
    return "\n".join(line[4:] for line in lines if line.startswith("//!"))


def words_of(root):
    """The words of code and specs, without their comments."""
    files = [*root.glob("crates/*/src/**/*.rt"), *root.glob("crates/*/specs/**/*.antt")]
    return {word for file in files for word in re.findall(r"\w+", COMMENT.sub("", file.read_text()))}


def is_defined(name, file):
    """Whether a definition stands in a file of specs/."""
    return re.search(rf"^\s*(?:(?:pub|abbrev|data|record|unfoldable) )*{name}\b", COMMENT.sub("", file.read_text()), re.MULTILINE) is not None


def looked_at_files(crates, crate, text):
    """What a front page cites: whether it is there, and what is said where it isn't."""
    for names, file, other in CITED.findall(text):
        found = [*(crates / (other or crate)).glob(f"specs/**/{file}")]
        yield bool(found), f"{file} isn't there"
        for name in NAME.findall(names):
            yield any(is_defined(name, it) for it in found), f"{name} isn't in {file}"
    for file, other in SOURCE.findall(text):
        yield (crates / (other or crate) / "src" / file).exists(), f"{file} isn't there"


def looked_at_clauses(folder, text):
    """Whether each clause that a front page names is there, and what is said where it isn't."""
    code = "\n".join(file.read_text() for file in folder.glob("src/**/*.rt"))
    clauses = {*re.findall(r"^\s+(?:requires|ensures) (\w+)", code, re.MULTILINE)}
    for names in CLAUSES.findall(text):
        for name in NAME.findall(names):
            yield name in clauses, f"no clause is named {name}"


def looked_at_sources(sources, text):
    """Whether each file of a crate is named: by its own name, or by that of its folder."""
    named = {name.split("/")[-1] for name in NAME.findall(text)}
    for file in sorted({*sources.rglob("*.rt")} - {sources / "lib.rt"}):
        is_in_folder = file.parent != sources and f"`{file.parent.name}/`" in text
        yield file.name in named or is_in_folder, f"doesn't name {file.relative_to(sources)}"


def looked_at_names(root, folder, words, text):
    """Whether each other name of a front page is there, and what is said where it isn't."""
    for name in sorted(set(NAME.findall(text))):
        is_file = (root / name).exists() or (folder / name).exists() or (folder / "src" / name).exists()
        is_known = name.endswith(".rt") or name.startswith("MPI") or name.split("::")[-1].lstrip("-") in words
        yield is_file or is_known or (root / "crates" / name).exists(), f"{name} isn't there"


def looked_at(root):
    """All that is looked at in front pages: whether it is well, and what is said where it isn't."""
    words = words_of(root)
    for file in sorted(root.glob("crates/*/src/lib.rt")):
        folder = file.parents[1]
        head = head_of(folder)
        text = " ".join(head.split())
        found = [(len(head.splitlines()) <= LONGEST, f"has more than {LONGEST} lines"), ("Not here" in head, "doesn't say what is 'Not here'"),
                 *looked_at_sources(folder / "src", text), *looked_at_files(root / "crates", folder.name, text), *looked_at_clauses(folder, text), *looked_at_names(root, folder, words, text)]
        for is_well, fault in found:
            yield is_well, f"the front page of {folder.name}: {fault}"
