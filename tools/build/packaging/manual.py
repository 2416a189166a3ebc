"""The man page and the shell completion of a program, made from what it prints for `--help`.

A help text has usage lines (`usage: PROGRAM COMMAND ..`, then `PROGRAM COMMAND ..` below it), each with indented lines that
explain it; lines of options, `--name VALUE  text`, whose text goes on in lines that are indented further; lines of prose; and
lines that begin with `status:` or `example:`. Nothing here knows the name of a command or of an option.
"""

import dataclasses
import re
import time

OPTION = re.compile(r"( +)(--[a-z][\w-]*)(?: ([A-Z]+)\b)?(?: +(.*))?$")
BRACKETS = re.compile(r"\[(--[a-z][\w-]*)(?: ([A-Z]+))?\]")
LABELLED = re.compile(r"(status|example): *(.*)")
ALL_OPTIONS = "[options]"
# the values that are the name of a file
A_FILE = re.compile(r"FILE|TRACE|PROFILE|RECORD")


@dataclasses.dataclass
class Option:
    name: str
    value: str
    text: str


@dataclasses.dataclass
class Command:
    """A usage line behind the program's name, and what explains it."""

    words: str
    text: str = ""
    options: list = dataclasses.field(default_factory=list)

    def names(self):
        """The words by which it is called: one, or several with bars between them."""
        found = []
        for word in self.words.split():
            if word != "|" and not re.fullmatch(r"--?[a-z][\w-]*|[a-z]\w*", word):
                break
            found += [word] if word != "|" else []
        return found if "|" in self.words else found[:1]


@dataclasses.dataclass
class Help:
    program: str
    commands: list
    options: list
    prose: list  # paragraphs, and lists of lines that are shown as they are
    introduction: str  # the line before the options
    labelled: dict  # the lines behind `status` and `example`

    def options_of(self, command):
        """All options that a command takes, each once."""
        found = {it.name: it for it in command.options}
        for name, value in BRACKETS.findall(command.words):
            found.setdefault(name, Option(name, value, ""))
        if ALL_OPTIONS in command.words:
            found.update({it.name: it for it in self.options})
        return list(found.values())


def margin_of(line):
    return len(line) - len(line.lstrip())


class Reader:
    """Reads a help text line by line: `last` takes what a further indented line adds."""

    def __init__(self, program):
        self.help = Help(program, [], [], [], "", {})
        self.last, self.margin = None, 0
        self.label = None

    def line(self, line):
        usage = re.match(rf"(?:usage: |       ){re.escape(self.help.program)}(?: (.*))?$", line)
        option, label = OPTION.match(line), LABELLED.match(line)
        if usage:
            self.help.commands.append(Command(usage[1] or ""))
            self.last, self.margin, self.label = self.help.commands[-1], 7, None
        elif label:
            self.label, self.last = label[1], None
            self.help.labelled[self.label] = [label[2]]
        elif option and (not isinstance(self.last, Option) or len(option[1]) <= self.margin):
            self.option(option)
        elif self.last is not None and margin_of(line) > self.margin:
            self.last.text = f"{self.last.text} {line.strip()}".strip()
        elif self.label and line.startswith("   "):
            self.help.labelled[self.label].append(line.strip())
        else:
            self.prose(line)

    def option(self, found):
        made = Option(found[2], found[3] or "", found[4] or "")
        of_a_command = bool(self.help.commands) and len(found[1]) > 7
        if not of_a_command and not self.help.options and self.help.prose and isinstance(self.help.prose[-1], str):
            self.help.introduction = self.help.prose.pop()
        (self.help.commands[-1].options if of_a_command else self.help.options).append(made)
        self.last, self.margin, self.label = made, len(found[1]), None

    def prose(self, line):
        self.last = self.label = None
        written = self.help.prose
        if line.startswith("  "):
            if not written or isinstance(written[-1], str):
                written.append([])
            written[-1].append(line.strip())
        elif line.strip() and written and isinstance(written[-1], str) and written[-1][-1] not in ".:":
            written[-1] += f" {line.strip()}"
        elif line.strip():
            written.append(line.strip())


def read(program, text):
    """What a program's help text says."""
    reader = Reader(program)
    for line in text.splitlines():
        reader.line(line)
    if not reader.help.commands:
        raise ValueError(f"the help text of {program} has no usage line")
    return reader.help


# THE MAN PAGE

def roff(text):
    """A text whose signs mean nothing to roff."""
    escaped = text.replace("\\", "\\e").replace("-", "\\-").replace("'", "\\(aq")
    return f"\\&{escaped}" if escaped[:1] in (".", "'") else escaped


def bold_words(text):
    """A usage line: literal words in bold, places of values in italics."""
    parts = re.split(r"([A-Z]{2,}|\b[A-Z]\b)", text)
    shown = [f"\\fI{roff(it)}\\fR" if at % 2 else (f"\\fB{roff(it)}\\fR" if it.strip(" []|.") else roff(it))
             for at, it in enumerate(parts) if it]
    return "".join(shown)


def option_item(option):
    value = f" \\fI{option.value}\\fR" if option.value else ""
    return [".TP", f"\\fB{roff(option.name)}\\fR{value}", roff(option.text)]


def statuses(lines):
    """Each exit status with its text, of `0 done; 1 ..; 2 ..`."""
    found = []
    for part in "\n".join(lines).replace("\n", " ").split(";"):
        number, _, text = part.strip().partition(" ")
        found += [".TP", f"\\fB{roff(number)}\\fR", roff(text)] if text else []
    return found


def page(of, version, date, summary, others):
    """The man page of a program, in roff."""
    day = time.strftime("%Y-%m-%d", time.gmtime(date))
    made = [f'.TH {of.program.upper()} 1 {day} "eip {version}" "EtherNet/IP line"', ".SH NAME", roff(f"{of.program} - {summary}")]
    made.append(".SH SYNOPSIS")
    for command in of.commands:
        made += [f"\\fB{roff(of.program)}\\fR {bold_words(command.words)}", ".br"]
    made.append(".SH COMMANDS")
    for command in of.commands:
        made += [".TP", bold_words(command.words), roff(command.text)]
        if command.options:
            made += [".RS", *(line for it in command.options for line in option_item(it)), ".RE"]
    if of.prose:
        made.append(".SH DESCRIPTION")
    for it in of.prose:
        made += [".PP", roff(it)] if isinstance(it, str) else [".nf", ".RS", *map(roff, it), ".RE", ".fi"]
    if of.options:
        made += [".SH OPTIONS", roff(of.introduction[:1].upper() + of.introduction[1:])]
        made += [line for it in of.options for line in option_item(it)]
    for label, title in (("status", "EXIT STATUS"), ("example", "EXAMPLES")):
        lines = of.labelled.get(label, [])
        if lines:
            made += [f".SH {title}", *(statuses(lines) if label == "status" else map(roff, lines))]
    made += [".SH SEE ALSO", ", ".join(f"\\fB{roff(it)}\\fR(1)" for it in others) + ", and the documents of the package eip"]
    return "\n".join(made) + "\n"


# SHELL COMPLETION

def completion(of):
    """A completion script for bash: commands, then the options of the command, or files."""
    names = [name for command in of.commands for name in command.names()]
    every = {it.name: it for command in of.commands for it in of.options_of(command)}
    valued = [it for it in every.values() if it.value]
    files = [it.name for it in valued if A_FILE.search(it.value)]
    others = [it.name for it in valued if it.name not in files]
    made = [
        f"# Completion of {of.program} in bash. It is made from what {of.program} --help prints.",
        f"_{of.program}() {{",
        "    local word=${COMP_WORDS[COMP_CWORD]} before=${COMP_WORDS[COMP_CWORD - 1]} words=",
        "    COMPREPLY=()",
        '    if [ "$COMP_CWORD" -eq 1 ]; then',
        f"        mapfile -t COMPREPLY < <(compgen -W '{' '.join(names)}' -- \"$word\")",
        "        return",
        "    fi",
    ]
    if valued:
        made.append("    case $before in")
        made += [f"    {' | '.join(files)}) mapfile -t COMPREPLY < <(compgen -f -- \"$word\"); return ;;"] if files else []
        made += [f"    {' | '.join(others)}) return ;;"] if others else []
        made.append("    esac")
    made.append("    case ${COMP_WORDS[1]} in")
    for command in of.commands:
        taken = [it.name for it in of.options_of(command)]
        if taken:
            made.append(f"    {' | '.join(command.names())}) words='{' '.join(taken)}' ;;")
    made += [
        "    esac",
        "    case $word in",
        "    -*) mapfile -t COMPREPLY < <(compgen -W \"$words\" -- \"$word\") ;;",
        "    *) mapfile -t COMPREPLY < <(compgen -f -- \"$word\") ;;",
        "    esac",
        "}",
        f"complete -o filenames -F _{of.program} {of.program}",
    ]
    return "\n".join(made) + "\n"
