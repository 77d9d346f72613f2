"""What a program's help says: its usage, its commands, its options. Man pages and completions are made of this."""
import re
import subprocess
from dataclasses import dataclass, field

HEADING = re.compile(r"(Commands|Arguments|Options):\n")
ROW = re.compile(r"^ {2,6}(\S.*?)(?: {2,}(\S.*))?$")
# A row goes on below what it says.
FURTHER = re.compile(r"^ {8,}(\S.*)$")


@dataclass
class Row:
    """A row of a help: a command or an option, and what it is for."""

    head: str
    about: str

    def names(self):
        """The names of an option, as -h and --help."""
        return [word for word in self.head.replace(",", " ").split() if word.startswith("-")]

    def value(self):
        """What an option takes, as <N>. Empty where it takes nothing."""
        return " ".join(word for word in self.head.replace(",", " ").split() if not word.startswith("-"))

    def choices(self):
        """The values that an option takes, where the help names them: in a list, or as the one word that isn't a name for others."""
        listed = re.search(r"\[possible values: ([^]]*)\]", self.about)
        if listed:
            return listed[1].split(", ")
        return [self.value()] if re.fullmatch("[a-z]+", self.value()) else []


@dataclass
class Help:
    """The help of a program or of a command of it."""

    name: str
    before: list = field(default_factory=list)
    usage: list = field(default_factory=list)
    commands: list = field(default_factory=list)
    arguments: list = field(default_factory=list)
    options: list = field(default_factory=list)
    after: list = field(default_factory=list)

    def about(self):
        """What it is for: its first sentence."""
        return first_sentence(self.before[0])

    def own_options(self):
        """The options, each once: a help may have a row for each form of a value."""
        first = {}
        for row in self.options:
            first.setdefault(tuple(row.names()), row)
        return list(first.values())


def first_sentence(text):
    """The first sentence of a text, without its end."""
    return re.split(r"(?<=\?) |\. |\.?\n|\.$", text)[0]


def rows(lines):
    """The rows that stand in these lines."""
    found = []
    for line in lines:
        further, row = FURTHER.match(line), ROW.match(line)
        if row and (row[2] or not further or not found):
            found.append(Row(row[1], row[2] or ""))
        elif further:
            found[-1].about = f"{found[-1].about} {further[1]}".strip()
    return found


def read(name, text):
    """The help of this name that a text is. Its paragraphs are known by their first words."""
    said = Help(name)
    for paragraph in text.strip("\n").split("\n\n"):
        heading = HEADING.match(paragraph)
        if heading:
            getattr(said, heading[1].lower()).extend(rows(paragraph.split("\n")[1:]))
        elif re.match(" {2,6}-", paragraph):
            said.options.extend(rows(paragraph.split("\n")))
        elif re.match(f"(Usage: )?{re.escape(name)} ", paragraph) and not said.usage:
            said.usage = paragraph.replace("Usage: ", "", 1).split("\n")
        else:
            (said.after if said.options else said.before).append(paragraph)
    if not said.before or not said.usage or not said.options:
        raise ValueError(f"the help of {name} has no text, no usage or no options: tools/archive/helps.py can't read it")
    return said


def written(*words):
    """What a program writes when it is asked for help."""
    return subprocess.run(words, stdin=subprocess.DEVNULL, stdout=subprocess.PIPE, text=True, check=True).stdout


def of_program(program, name):
    """The help of a program, and of each of its commands but 'help' itself, by the words '--help'."""
    top = read(name, written(program, "--help"))
    below = [row.head for row in top.commands if row.head != "help"]
    return top, [read(f"{name} {it}", written(program, it, "--help")) for it in below]
