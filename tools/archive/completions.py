"""What completes the words of a program in bash, zsh and fish, made of its help."""

HEAD = "# Completes the words of {name}, as its help has them. Made by tools/archive/package."


def quoted(text):
    """A text as one word of a shell."""
    return "'" + text.replace("'", "'\\''") + "'"


def spelled(options):
    """The names of options."""
    return [name for row in options for name in row.names()]


def by_command(top, commands):
    """The names of the commands, each with its options; a program without commands is one of no name."""
    return [(it.name.split()[-1], it) for it in commands] or [("", top)]


# bash

BASH = """{head}
{function}() {{
    local word=$2 before=$3 command= words= is_file= at
    {finds}
    case $command:$before in
{values}
    esac
    case $command in
{words}
    esac
    if [[ $word == -* || ! $is_file ]]; then
        COMPREPLY=($(compgen -W "$words" -- "$word"))
    else
        compopt -o filenames
        mapfile -t COMPREPLY < <({files})
    fi
}}
complete -F {function} {name}
"""
BASH_COMMAND = """for ((at = 1; at < COMP_CWORD; at++)); do
        [[ ${COMP_WORDS[at]} == -* ]] || { command=${COMP_WORDS[at]} && break; }
    done"""
JOBS_IN_BASH = """compgen -f -X '!*.toml' -- "$word"; compgen -d -- "$word\""""


def in_bash(top, commands):
    """The file for bash."""
    values, words = [], []
    for name, it in by_command(top, commands):
        for row in filter(lambda row: row.value(), it.own_options()):
            names = "|".join(f"{name}:{spelling}" for spelling in row.names())
            values.append(f"        {names}) COMPREPLY=($(compgen -W {quoted(' '.join(row.choices()))} -- \"$word\")); return ;;")
        words.append(f"        {name or quoted('')}) words={quoted(' '.join(spelled(it.own_options())))} is_file=yes ;;")
    if commands:
        names = " ".join(row.head for row in top.commands)
        words.append(f"        '') words={quoted(' '.join([names, *spelled(top.options)]))} ;;")
        words.append(f"        help) words={quoted(names)} ;;")
    return BASH.format(head=HEAD.format(name=top.name), name=top.name, function="_" + top.name.replace("-", "_"), values="\n".join(values),
                       words="\n".join(words), finds=BASH_COMMAND if commands else ":  # it has no commands",
                       files=JOBS_IN_BASH if commands else 'compgen -f -- "$word"')


# zsh

ZSH = """#compdef {name}
{head}
local -a commands
local state line
commands=(
{commands}
)
_arguments -C {options} '1:command:->command' '*::word:->words'
case $state in
command) _describe command commands ;;
words)
    case $words[1] in
{words}
    help) _describe command commands ;;
    esac
    ;;
esac
"""


def told_in_zsh(text):
    """A text as zsh takes it between brackets."""
    return text.replace("\\", "\\\\").replace("[", "\\[").replace("]", "\\]").replace(":", "\\:")


def options_in_zsh(options):
    """Options as words of '_arguments'."""
    words = []
    for row in options:
        value = f":{told_in_zsh(row.value().strip('<>'))}:({' '.join(row.choices())})" if row.value() else ""
        words += [quoted(f"{name}[{told_in_zsh(row.about)}]{value}") for name in row.names()]
    return " ".join(words)


def in_zsh(top, commands):
    """The file for zsh."""
    if not commands:
        return f"#compdef {top.name}\n{HEAD.format(name=top.name)}\n_arguments {options_in_zsh(top.own_options())} '*:file:_files'\n"
    rows = [f"    {quoted(told_in_zsh(row.head) + ':' + row.about)}" for row in top.commands]
    words = [f"    {name}) _arguments {options_in_zsh(it.own_options())} '*:file:_files -g \"*.toml\"' ;;" for name, it in by_command(top, commands)]
    return ZSH.format(name=top.name, head=HEAD.format(name=top.name), commands="\n".join(rows), options=options_in_zsh(top.options),
                      words="\n".join(words))


# fish


def option_in_fish(row):
    """An option as words of 'complete'."""
    words = [f"{'-l' if name.startswith('--') else '-s'} {name.lstrip('-')}" for name in row.names()]
    if row.value():
        words.append("-x" + (f" -a {quoted(' '.join(row.choices()))}" if row.choices() else ""))
    return " ".join([*words, f"-d {quoted(row.about)}"])


def in_fish(top, commands):
    """The file for fish."""
    lines, begin = [HEAD.format(name=top.name)], f"complete -c {top.name}"
    if not commands:
        return "\n".join([*lines, *(f"{begin} {option_in_fish(row)}" for row in top.own_options()), ""])
    none = "-n __fish_use_subcommand"
    lines += [f"{begin} -f {none} -a {row.head} -d {quoted(row.about)}" for row in top.commands]
    lines += [f"{begin} {none} {option_in_fish(row)}" for row in top.options]
    for name, it in by_command(top, commands):
        seen = quoted(f"__fish_seen_subcommand_from {name}")
        lines += [f"{begin} -f -n {seen} -a '(__fish_complete_suffix .toml)'"]
        lines += [f"{begin} -n {seen} {option_in_fish(row)}" for row in it.own_options()]
    names = quoted(" ".join(row.head for row in top.commands))
    return "\n".join([*lines, f"{begin} -f -n '__fish_seen_subcommand_from help' -a {names}", ""])


# Where each shell looks below share/, and what makes the file for it.
SHELLS = {"bash-completion/completions/{}": in_bash, "zsh/site-functions/_{}": in_zsh, "fish/vendor_completions.d/{}.fish": in_fish}
