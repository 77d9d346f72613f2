"""Names that an .rt file imports by `ghost use`, and that none of its clauses, ghost items and tactics uses."""
import re

GHOST_USE = re.compile(r"ghost\s+use\s+([^;]+);")
HEAD = re.compile(r"\b(?:requires|ensures|ghost|decreases|tactic|prove)\b[^{}();]*[{(]")
BY = re.compile(r"\s*by\s*\{")
BRACKETS = {"{": "}", "(": ")"}


def end_of(text, start):
    """Where the bracket that opens here is closed."""
    opening, depth = text[start], 0
    for place in range(start, len(text)):
        depth += (text[place] == opening) - (text[place] == BRACKETS[opening])
        if depth == 0:
            return place + 1
    return len(text)


def ghost_text(text):
    """All that clauses, ghost items and tactics say, without imports and comments."""
    text, found = re.sub(r"//[^\n]*", "", GHOST_USE.sub(" ", text)), []
    for head in HEAD.finditer(text):
        end = end_of(text, head.end() - 1)
        while proof := BY.match(text, end):
            end = end_of(text, proof.end() - 1)
        found.append(text[head.start():end])
    return " ".join(found)


def is_used(name, said):
    """Whether a ghost text has a name, or the parts of an operator. A parameter, as `table.now`, is no such name."""
    if "◌" in name:
        return all(part in re.split(r"[\s()]+", said) for part in name.split("◌") if part)
    if name == "[]":
        return name in said
    return bool(re.search(rf"(?<![\w.]){re.escape(name)}(?![\w-])(?!\.(?:now|old|new|entry)\b)", said))


def unused_ghosts(text):
    """The names that are imported and not used, each with its line."""
    said = ghost_text(text)
    for match in GHOST_USE.finditer(text):
        path, _, names = match.group(1).partition(".{")
        entries = re.split(r"[\s,]*,[\s,]*", names.rstrip("} \n\t,")) if names else [path]
        for entry in entries:
            name = entry.rpartition(" as ")[2].strip().rpartition(".")[2]
            if not is_used(name, said):
                yield text.count("\n", 0, match.start()) + 1, name
