"""The commands and options of the program, read from the help that it shows: crates/test_arguments/stdout has it, and the gate holds that file against the
program.
"""
import os
import re
from dataclasses import dataclass, field

ROOT = os.path.dirname(os.path.dirname(os.path.realpath(__file__)))
SOURCE = "crates/volcano_arguments/src/command_line.rt"
HELP = "crates/test_arguments/stdout"
CODES = "crates/volcano_why/src"
# An option or an argument: a line of the help, in columns.
OPTION = re.compile(r"(?:-(?P<short>\w), |    )--(?P<long>[\w-]+)(?: <(?P<value>[^>]+)>)?  +(?P<help>.*)")
ARGUMENT = re.compile(r"[<\[](?P<value>[^>\]]+)[>\]](?P<many>\.\.\.)?  +(?P<help>.*)")
DEFAULT = re.compile(r" \[default: (.*)\]$")
# What may be given more than once. Help does not show it of options.
REPEATED = {("run", "plan")}


@dataclass
class Argument:
    """An option, or an argument without a name of its own (`long` is empty then)."""

    long: str = ""
    short: str = ""
    value_name: str = ""
    help: str = ""
    required: bool = False
    default_value: str = ""
    many: bool = False

    def takes_value(self):
        return bool(self.value_name)

    def repeats(self):
        return self.many

    def words(self):
        """The words that the option takes where its help names them in backquotes, with its default if it has one: help names all of them so."""
        named = re.findall(r"`(\w[\w-]*)`", self.help) if self.takes_value() else []
        return list(dict.fromkeys(named)) if not self.default_value or self.default_value in named else []


@dataclass
class Command:
    name: str
    about: str = ""
    after_help: str = ""
    version: str = ""
    arguments: list = field(default_factory=list)
    commands: list = field(default_factory=list)

    def options(self):
        return [it for it in self.arguments if it.long]

    def positionals(self):
        return [it for it in self.arguments if not it.long]


def argument_in(command, line, usage):
    """The option or the argument of a line, or none for what each command has."""
    found = OPTION.fullmatch(line[2:])
    if found:
        if found["long"] in ("help", "version"):
            return None
        shown = found["help"]
        default = DEFAULT.search(shown)
        required = f" --{found['long']} " in f"{usage} "
        text = DEFAULT.sub("", shown)
        many = (command, found["long"]) in REPEATED
        return Argument(found["long"], found["short"] or "", found["value"] or "", text, required, default[1] if default else "", many)
    found = ARGUMENT.fullmatch(line.strip())
    if not found:
        raise ValueError(f"{HELP}: tools/command_line.py cannot read {line!r}")
    return Argument(value_name=found["value"], help=found["help"], required=f"<{found['value']}>" in usage, many=bool(found["many"]))


def command_of(name, text):
    """A command by its help: its parts stand behind one another, with an empty line between."""
    parts = text.strip().split("\n\n")
    command, usage = Command(name, about=parts[0]), parts[1]
    for part in parts[2:]:
        title, _, lines = part.partition("\n")
        if title in ("Options:", "Arguments:"):
            found = [argument_in(name, it, usage) for it in lines.split("\n")]
            command.arguments += [it for it in found if it]
        elif title != "Commands:":
            command.after_help = part
    return command


def read_texts():
    """What the program shows, by the command line that asks for it."""
    with open(f"{ROOT}/{HELP}", encoding="utf-8") as file:
        parts = re.split(r"(?m)^\$ volcano ?(.*)\n", file.read())
    # Behind the last text stands the number of lines.
    return {line: re.sub(r"\n[\w.]+: \d+ lines\n$", "\n", text) for line, text in zip(parts[1::2], parts[2::2])}


def read_program():
    """The program as a command, with its commands."""
    texts = read_texts()
    program = command_of("volcano", texts["--help"])
    program.version = texts["--version"].strip().removeprefix("volcano ")
    program.commands = [command_of(it.removesuffix(" --help"), texts[it]) for it in texts if not it.startswith("-")]
    return program


def read_codes():
    """The codes that `why` knows, in the order of their letters and numbers."""
    found = set()
    for name in os.listdir(f"{ROOT}/{CODES}"):
        with open(f"{ROOT}/{CODES}/{name}", encoding="utf-8") as file:
            found |= set(re.findall(r'"([A-Z]\d+)" => Some\(', file.read()))
    return sorted(found, key=lambda it: (it[0], int(it[1:])))
