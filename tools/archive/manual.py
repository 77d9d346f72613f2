"""Man pages, made of what programs say of themselves."""
import re


def escaped(text):
    """A text as roff takes it."""
    text = text.replace("\\", "\\e").replace("-", "\\-")
    return re.sub(r"^(?=[.'])", r"\\&", text, flags=re.MULTILINE)


def as_it_stands(text):
    """A text whose lines stay as they are."""
    return f".nf\n{escaped(text)}\n.fi\n"


def head(name, about, source, date):
    """What each page begins with."""
    return f'.TH "{escaped(name.upper())}" 1 "{date}" "{source}"\n.SH NAME\n{escaped(name)} \\- {escaped(about)}\n'


def entry(row):
    """A row of a help, as an entry of a list."""
    return f".TP\n.B {escaped(row.head)}\n{escaped(row.about)}\n"


def paragraphs(texts):
    """Paragraphs that stay as they are: examples stand in them."""
    return ".PP\n".join(map(as_it_stands, texts))


def of_command(command):
    """The part of a page on one command of a program."""
    lists = "".join(map(entry, [*command.arguments, *command.options]))
    usage = escaped(" ".join(command.usage))
    return f'.SS "{usage}"\n{paragraphs(command.before)}{lists}.PP\n{paragraphs(command.after)}'


def of_help(top, commands, source, date):
    """The page of a program: its help, and the help of each of its commands."""
    text = head(top.name, top.about(), source, date)
    text += ".SH SYNOPSIS\n" + as_it_stands("\n".join(line for it in ([top] if not commands else commands) for line in it.usage))
    text += ".SH DESCRIPTION\n" + paragraphs(top.before)
    if commands:
        text += ".SH COMMANDS\n" + "".join(map(entry, top.commands)) + "".join(map(of_command, commands))
    return text + ".SH OPTIONS\n" + "".join(map(entry, top.options)) + ".SH NOTES\n" + paragraphs(top.after)


def of_script(name, script, source, date):
    """The page of a script without a help: the lines of comment that it begins with."""
    lines = re.match(r"#!.*\n((?:# .*\n)+)", script)
    if not lines:
        raise ValueError(f"{name} doesn't begin with lines that say what it does")
    said = [line[2:] for line in lines[1].splitlines()]
    return head(name, said[0].partition(":")[0], source, date) + ".SH DESCRIPTION\n" + "\n.PP\n".join(map(escaped, said)) + "\n"
