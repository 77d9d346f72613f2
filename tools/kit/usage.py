"""What the program answers without a look at a job: help, a command line that can't be followed, files that aren't there. The rules are those of
the kit's 'clap'; the commands and their options are read from the kept pages of the program's help, docs/HELP.txt and docs/help. Where these
don't say what it answers, nothing is answered. 'tools/gate/check-unbuilt' holds the answers to those of the program."""
import functools
import os
import pathlib
import re
from collections import namedtuple

ROOT = pathlib.Path(__file__).resolve().parents[2]
MAIN = ROOT / "docs/HELP.txt"
# Where the version stands.
SOURCE, VERSION = ROOT / "crates/ulfm_command_line/src/version.rt", r'const VERSION: &str = "(.*)";'
# What comes: the status, and the texts on standard output and standard error.
Answer = namedtuple("Answer", "status output errors")
DONE, USAGE, INPUT_FAILED = 0, 2, 5
# From here on two names are alike.
ALIKE = 0.7
# The values that a page gives no range for.
FREE = {"GOALS": r"[^-].*", "PAGE": r"[^-].*", "STEPS": r"[^-].*", "PLACE": r"-|[0-7]\.\d{1,3}\*?"}


class Page:
    """A kept page: its text, the usage, and of each option how it is shown and what values it takes, or None."""

    def __init__(self, file):
        self.text = file.read_text()
        self.usage = re.search(r"^Usage: (.*)$", self.text, re.M)[1]
        self.shown, self.values = {}, {}
        for name, value, about in re.findall(r"^ +(?:-\w, )?--(\S+)(?: <(\w+)>)? +(.*)$", self.text, re.M):
            self.shown[name] = f"--{name} <{value}>" if value else f"--{name}"
            self.values[name] = values_of(value, about) if value else None
        self.required = [it for it in self.shown if f"] {self.shown[it]}" in self.usage]

    def usage_of(self, used, has_file=False):
        """The usage line where these options were given, or are meant."""
        if not used and not has_file:
            return self.usage
        called = re.match(r"ulfm( [a-z]+)?", self.usage)[0]
        end = "<COMMAND>" if called == "ulfm" else "<FILE>..." if has_file else "[FILE]..."
        return " ".join([called, *(self.shown[it] for it in dict.fromkeys([*self.required, *used])), end])

    def takes(self, name, has_value, value):
        """Whether an option takes this value, or stands without one."""
        is_value = self.values[name]
        return bool(is_value(value)) if is_value else not has_value


def values_of(value, about):
    """What says whether a text is a value of an option, by what its page tells of it."""
    numbers = re.search(r"\[(\d+) (?:to|or) (\d+)\b", about)
    named = re.search(r"\[possible values: (.*)\]", about)
    if numbers:
        return lambda text: re.fullmatch(r"[0-9]{1,9}", text) and int(numbers[1]) <= int(text) <= int(numbers[2])
    if named:
        return lambda text: text in named[1].split(", ")
    return lambda text: value in FREE and re.fullmatch(FREE[value], text)


@functools.lru_cache(maxsize=None)
def page(command=None):
    """The page of a command, or of the program."""
    return Page(MAIN.parent / f"help/{command}.txt" if command else MAIN)


def commands():
    """All commands, in the order of the program's page."""
    return re.findall(r"^  ([a-z]+)  +", page().text.partition("\nCommands:\n")[2].partition("\n\n")[0], re.M)


def likeness(word, name):
    """How alike two texts are, from 0 to 1, by Jaro."""
    reach, taken, met = max(max(len(word), len(name)) // 2 - 1, 0), set(), []
    for at, letter in enumerate(word):
        places = range(max(at - reach, 0), min(at + reach + 1, len(name)))
        place = next((it for it in places if name[it] == letter and it not in taken), None)
        if place is not None:
            taken.add(place)
            met.append(letter)
    if not met:
        return 0.0
    moved = sum(letter != name[it] for letter, it in zip(met, sorted(taken))) // 2
    return (len(met) / len(word) + len(met) / len(name) + (len(met) - moved) / len(met)) / 3


def alike(word, names):
    """The names like a word, the likest last."""
    return [it for it in sorted(names, key=lambda it: likeness(word, it)) if likeness(word, it) > ALIKE]


def refused(message, usage, tip=""):
    """What is said of a command line that can't be followed."""
    told = " ".join(line.strip() for line in message.splitlines())
    below, beside = (f"\n\n  tip: {tip}", f"; {tip}") if tip else ("", "")
    return Answer(USAGE, f"error: {message}{below}\n\nUsage: {usage}\n\nFor more information, try '--help'.\n", f"ulfm: {told}{beside}\n")


def no_command():
    return refused(f"'ulfm' requires a subcommand but one was not provided\n  [subcommands: {', '.join(commands())}]", page().usage)


def unknown_command(word):
    near = alike(word, commands())
    what = "a similar subcommand exists" if len(near) == 1 else "some similar subcommands exist"
    tip = f"{what}: " + ", ".join(f"'{it}'" for it in near) if near else ""
    return refused(f"unrecognized subcommand '{word}'", page().usage, tip)


def unknown_option(of, word, used=(), has_file=False):
    """What is said of a word that begins with a hyphen, and is no option of a page. The options that were given stand in the usage."""
    is_long = word.startswith("--")
    shown = word.partition("=")[0] if is_long else word[:2]
    near = alike(shown[2:], of.shown)[-1:] if is_long else []
    usage = of.usage_of([*used, *near], has_file) if is_long else of.usage
    if near:
        tip = f"a similar argument exists: '--{near[0]}'"
    else:
        tip = f"to pass '{shown}' as a value, use '-- {shown}'" if of is not page() and shown.endswith(".toml") else ""
    return refused(f"unexpected argument '{shown}' found", usage, tip)


def help_of(names):
    """The answer to 'help' and these names."""
    if not names:
        return Answer(DONE, page().text, "")
    if names[0] not in commands():
        return refused(f"unrecognized subcommand '{names[0]}'", page().usage)
    if names[:1] == ["help"] and names[1:]:
        return None
    of = page(names[0])
    return refused(f"unrecognized subcommand '{names[1]}'", of.usage) if names[1:] else Answer(DONE, of.text, "")


def missing(of, used, files):
    """The answer where a command's options are as they should be, or None: a required one isn't there, or no file is."""
    needed = [of.shown[it] for it in of.required if it not in used]
    if needed:
        message = "the following required arguments were not provided:" + "".join(f"\n  {it}" for it in needed)
        return refused(message, of.usage_of(used or of.required, bool(files)))
    # (these ask for nothing where they stand so)
    if {"threads", "html"} & {*used} and "stops" not in used or {"stop", "stops"} <= {*used} or "html" in used and not files:
        return None
    if not files or any(map(os.path.lexists, files)):
        return None
    heads = "".join(f"== {it}\n" for it in files) if files[1:] else ""
    return Answer(INPUT_FAILED, heads, "".join(f"ulfm: '{it}' can't be read: No such file or directory (os error 2)\n" for it in files))


def of_command(of, words):
    """The answer to the words behind a command, of this page, or None."""
    used, files, words = [], [], [*words]
    while words:
        word = words.pop(0)
        if word == "--":
            files, words = [*files, *words], []
        elif not word.startswith("-") or word == "-":
            files.append(word)
        elif word.startswith("-h") or word == "--help":
            return Answer(DONE, of.text, "")
        else:
            name, has_value, value = word[2:].partition("=")
            if not word.startswith("--") or name not in of.shown:
                return unknown_option(of, word, used, bool(files))
            if of.values[name] and not has_value:
                value = words.pop(0) if words else ""
            if name in used or not of.takes(name, has_value, value):
                return None
            used.append(name)
    return missing(of, used, files)


def answer(words):
    """What the program answers to these words, where that is known without it."""
    if any(not it.isprintable() for it in words):
        return None
    if not words:
        return no_command()
    first, *rest = words
    if first.startswith("-h") or first == "--help":
        return Answer(DONE, page().text, "")
    if first == "help":
        return help_of(rest)
    if first in commands():
        return of_command(page(first), rest)
    if not first.startswith("-") or first == "-":
        return unknown_command(first)
    if first.startswith("-V") or first == "--version":
        return Answer(DONE, f"ulfm {re.search(VERSION, SOURCE.read_text())[1]}\n", "")
    # (of a command that follows, an option like this one is told)
    is_left = first.partition("=")[0] in ("--version", "--help", "--") or {*rest} & {*commands()}
    return None if is_left else unknown_option(page(), first)
