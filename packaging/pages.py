"""Man pages, and completions for bash, zsh and fish, made of what the programs print for --help.

The help is the one table of options: whatever a program takes is in its pages, and nothing else.
"""
import re
from typing import NamedTuple

OPTION = re.compile(r"  (?:(-\w), |    )(--[\w-]+)(?:[ =]<([^>]+)>)?(?:\.\.\.)?(?: {2,}(.*))?")
NAMED = re.compile(r"  (\S+)(?: {2,}(.*))?")
VALUES = re.compile(r" ?\[possible values: ([^]]*)\]")
# What no help says.
STATUS = {
    "cedar-fmt": "0 if the policies were written, or are formatted; 3 with --check if they aren't formatted; 1 if the text is "
    "refused, or can't be read or written; 2 for a usage error."
}
SEE = "cedar-fmt", "cedar-files", "cedar-lsp"


class Option(NamedTuple):
    short: str
    long: str
    value: str
    about: str

    def names(self):
        return [it for it in (self.short, self.long) if it]

    def values(self):
        """The values that are possible, if the help lists them."""
        found = VALUES.search(self.about)
        return found[1].split(", ") if found else []

    def takes_file(self):
        return self.value in ("FILE", "PATH", "NAME", "FOLDER", "GLOB")


class Help:
    """What a program prints for --help: what it is, its usage, its arguments, commands and options, and the rest."""

    def __init__(self, text):
        head, _, rest = text.partition("\n\nUsage: ")
        self.about, (self.usage, _, rest) = head.strip(), rest.partition("\n")
        self.arguments, self.commands, self.options, self.rest = [], [], [], []
        for block in rest.strip("\n").split("\n\n"):
            title, _, lines = block.partition("\n")
            # (a line that begins further right continues the one before)
            lines = re.sub(r"\n {9,}(?=\S)", " ", lines).split("\n")
            if title == "Options:":
                self.options = [Option(*(it or "" for it in OPTION.fullmatch(line).groups())) for line in lines]
            elif title in ("Arguments:", "Commands:"):
                found = [tuple(it or "" for it in NAMED.fullmatch(line).groups()) for line in lines]
                self.arguments, self.commands = (found, self.commands) if title == "Arguments:" else (self.arguments, found)
            else:
                self.rest.append(block)


class Program:
    """A program: its name, its help, and the help of its commands."""

    def __init__(self, name, help_of):
        self.name, self.own = name, Help(help_of())
        self.inner = {it: Help(help_of(it)) for it, _ in self.own.commands}
        self.options = [*self.own.options]
        for it in self.inner.values():
            self.options += [option for option in it.options if option.long not in [other.long for other in self.options]]


# ---- man pages


def roff(text):
    text = text.replace("\\", "\\e").replace("-", "\\-")
    return re.sub(r"^(?=[.'])", r"\\&", text, flags=re.M)


def described(options):
    for it in options:
        names = ", ".join(f"\\fB{roff(name)}\\fR" for name in it.names())
        value = f" \\fI{roff(it.value)}\\fR" if it.value else ""
        yield f".TP\n{names}{value}\n{roff(it.about)}"


def man_page(program, version, date):
    """The page of section 1, of a date as YYYY-MM-DD."""
    own, name = program.own, program.name
    about = own.about[0].lower() + own.about[1:]
    yield f'.TH {roff(name.upper())} 1 {date} "Noblesilk {version}" "User Commands"'
    yield f".SH NAME\n{roff(name)} \\- {roff(about)}\n.SH SYNOPSIS"
    yield "\n.br\n".join(f"\\fB{roff(name)}\\fR {roff(it.usage.partition(' ')[2])}" for it in (program.inner.values() or [own]))
    yield f".SH DESCRIPTION\n{roff(own.about)}."
    for word, inner in program.inner.items():
        yield f".PP\n\\fB{roff(f'{name} {word}')}\\fR: {roff(inner.about)}."
    if own.arguments:
        yield ".SH ARGUMENTS"
        yield from (f".TP\n\\fI{roff(it)}\\fR\n{roff(text)}" for it, text in own.arguments)
    yield ".SH OPTIONS"
    yield from described(program.options)
    rest = list(dict.fromkeys(block for it in (*program.inner.values(), own) for block in it.rest))
    texts = [it for it in rest if not it.startswith("Examples:")]
    statuses = [line for it in texts for line in [re.sub(r"(?s).*^Status: ", "", it, flags=re.M)] if "Status: " in it]
    notes = [re.sub(r"(?ms)^Status: .*", "", it).strip() for it in texts]
    for it in filter(None, notes):
        yield f".SH OUTPUT\n{roff(it)}"
    for it in statuses or [STATUS[name]]:
        yield f".SH EXIT STATUS\n{roff(it)}"
    for it in rest:
        if it.startswith("Examples:"):
            lines = "\n".join(line.strip() for line in it.split("\n")[1:])
            yield f".SH EXAMPLES\n.nf\n{roff(lines)}\n.fi"
    yield ".SH SEE ALSO\n" + ", ".join(f"\\fB{roff(it)}\\fR(1)" for it in SEE if it != name)


# ---- completions


def quoted(text):
    return "'" + text.replace("'", "'\\''") + "'"


def for_bash(program):
    call = "_" + program.name.replace("-", "_")
    options = " ".join(name for it in program.options for name in it.names())
    commands = " ".join(it for it, _ in program.own.commands)
    yield f"# Completions of {program.name} for bash.\n{call}() {{"
    yield "    local word=${COMP_WORDS[COMP_CWORD]} before=${COMP_WORDS[COMP_CWORD - 1]}\n    COMPREPLY=()\n    case $before in"
    for it in filter(lambda it: it.value, program.options):
        words = f"COMPREPLY=($(compgen -W {quoted(' '.join(it.values()))} -- \"$word\")); " if it.values() else ""
        words += "compopt -o default; " if it.takes_file() and not words else ""
        yield f"    {' | '.join(it.names())}) {words}return ;;"
    yield f'    esac\n    case $word in\n    -*) COMPREPLY=($(compgen -W {quoted(options)} -- "$word")) ;;'
    if commands:
        yield f'    *) [ "$COMP_CWORD" -gt 1 ] || COMPREPLY=($(compgen -W {quoted(commands)} -- "$word")) ;;'
    elif program.own.arguments:
        yield "    *) compopt -o default ;;"
    yield f"    esac\n}}\ncomplete -F {call} {program.name}"


def words_for_zsh(program):
    for it in program.options:
        text = re.sub(r"([\[\]:\\])", r"\\\1", it.about)
        value = f":{it.value}:" if it.value else ""
        value += f"({' '.join(it.values())})" if it.values() else "_files" if it.takes_file() else ""
        names = it.names()
        begin = quoted(f"({' '.join(names)})") + "{" + ",".join(names) + "}" if len(names) > 1 else names[0]
        yield begin + quoted(f"[{text}]{value}")
    if program.own.commands:
        yield quoted(f"1:command:({' '.join(it for it, _ in program.own.commands)})")
    if program.own.arguments:
        yield quoted("*:path:_files")


def for_zsh(program):
    yield f"#compdef {program.name}"
    yield " \\\n    ".join(["_arguments -s", *words_for_zsh(program)])


def for_fish(program):
    begin = f"complete -c {program.name}"
    yield f"# Completions of {program.name} for fish."
    for it, text in program.own.commands:
        yield f"{begin} -n __fish_use_subcommand -f -a {it} -d {quoted(text)}"
    if not program.own.arguments:
        yield f"{begin} -f"
    for it in program.options:
        short = f" -s {it.short[1:]}" if it.short else ""
        value = " -r -F" if it.takes_file() else " -x" if it.value else ""
        value = f" -x -a {quoted(' '.join(it.values()))}" if it.values() else value
        yield f"{begin}{short} -l {it.long[2:]}{value} -d {quoted(it.about)}"


def pages(program, version, date):
    """The files of a program: where each goes below PREFIX, and its bytes."""
    name = program.name
    made = {
        f"share/man/man1/{name}.1": man_page(program, version, date),
        f"share/bash-completion/completions/{name}": for_bash(program),
        f"share/zsh/site-functions/_{name}": for_zsh(program),
        f"share/fish/vendor_completions.d/{name}.fish": for_fish(program),
    }
    return {file: ("\n".join(parts) + "\n").encode() for file, parts in made.items()}
