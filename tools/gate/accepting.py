"""Writes what the program answers into a file of tests/, in place of what was wanted. All else in the file stays, byte for byte."""
import json
import re

# The value of a key as TOML writes it, from its first character to its last.
VALUE = r"('''.*?'''|\"\"\".*?\"\"\"|'[^'\n]*'|\"(?:\\.|[^\"\\\n])*\"|\d+)"


def parts(text):
    """A file's text, cut before each reply: what stands before the first, and each reply with what follows it."""
    return re.split(r"^(?=\[\[reply\]\]$)", text, flags=re.M)


def written(value):
    """A text or a number as TOML has it, a text of several lines as it stands."""
    if isinstance(value, str) and "\n" in value[:-1] and "'''" not in value and re.fullmatch(r"[\n\t -~]*", value):
        return f"'''\n{value}'''"
    return json.dumps(value, ensure_ascii=False)


def with_key(part, key, value):
    """A reply in which a key has this value. Where it lacks, it stands behind the words."""
    line = f"{key} = {written(value)}"
    changed, count = re.subn(rf"^{key} = {VALUE}$", lambda _: line, part, count=1, flags=re.M | re.S)
    return changed if count else re.sub(r"^words = .*$", lambda words: f"{words[0]}\n{line}", part, count=1, flags=re.M)


def accepted(part, reply, answers):
    """A reply as its command lines are answered, or None where they aren't answered alike, or it wants only a part of what comes."""
    (status, output, errors), *others = answers
    if any(it != answers[0] for it in others) or "output" not in reply and "errors" not in reply:
        return None
    if status != reply.get("status", 0):
        part = with_key(part, "status", status)
    for key, came in (("output", output), ("errors", errors)):
        if key in reply and reply[key] != came:
            part = with_key(part, key, came)
    return part
