"""The words of a program, as its help and its refusals say: its commands, and the operands and options of each."""

import re
import subprocess
from collections import namedtuple
from itertools import combinations

# An option: its names, the name of its value (None if it has none), what help says of it, whether a line must have it,
# and its values if there are only a few.
Option = namedtuple("Option", "names value about required few")
# An operand: its name, what help says of it, whether a line must have it, and whether it may be several words.
Operand = namedtuple("Operand", "name about required repeated")
# A command. Its rivals are pairs of options that no line has both of.
Command = namedtuple("Command", "name about operands options rivals")
# The commands, and the options of the program itself.
Program = namedtuple("Program", "commands options")

# The command that every program of `clap` has. It has no help of its own.
HELP = "help"
TOPIC = Operand("COMMAND", "", False, False)
REFUSED = 2
# A file that doesn't exist: that is found only after all words are read.
NO_FILE = "nosuch/nosuch"
# A number, a key in hexadecimal and one as text.
ANY = "0000"


def section(text, head):
    """The lines of a section of help, each as its words and what it says of them."""
    lines = text.partition(f"\n{head}:\n")[2].partition("\n\n")[0].splitlines()
    return [re.split("  +", line.strip(), maxsplit=1) for line in lines]


def operand(words, about):
    name = re.search(r"\w+", words).group()
    return Operand(name, about, words.startswith("<"), words.endswith("..."))


def option(words, about, usage=""):
    names = tuple(re.findall(r"(?<!\S)--?[\w-]+", words))
    value = re.search(r"<(\w+)>", words)
    return Option(names, value and value.group(1), about, any(f" {name} <" in usage for name in names), ())


class Reader:
    """Reads what a program says."""

    def __init__(self, program):
        self.program = program

    def run(self, *words):
        run = subprocess.run([self.program, *words], capture_output=True, text=True, stdin=subprocess.DEVNULL)
        return run.returncode, run.stdout + run.stderr

    def help_text(self, *command):
        status, text = self.run(*command, "--help")
        if status:
            raise SystemExit(f"{self.program} {' '.join(command)} --help: status {status}")
        return text

    def try_words(self, command, words):
        """The status and what is printed of a line that has these words and all that it must have."""
        required = [word for option in command.options if option.required for word in (option.names[0], NO_FILE)]
        operands = [NO_FILE] + [ANY] * (len(command.operands) - 1)
        return self.run(command.name, *words, *required, *operands)

    def takes(self, command, *words):
        return self.try_words(command, words)[0] != REFUSED

    def few(self, command, option):
        """The values that the program names when it refuses an empty one, if it takes these."""
        if not option.value or option.required:
            return ()
        named = re.search(r"^error: bad [\w ]+: use (.*)$", self.try_words(command, [option.names[0], ""])[1], re.M)
        values = re.split(", | or ", named.group(1)) if named else []
        return tuple(value for value in values if self.takes(command, option.names[0], value))

    def sample(self, command, option):
        """The option and, if it has a value, one that the program takes: of those that help names, or any."""
        if not option.value:
            return [option.names[0]]
        name = option.names[0]
        named = [word.strip("(),.;[]") for word in option.about.split()]
        for value in [*option.few, *named, ANY]:
            if self.takes(command, name, value):
                return [name, value]
        raise SystemExit(f"{command.name} {name}: help names no value that is accepted")

    def rivals(self, command):
        samples = {option: self.sample(command, option) for option in command.options if not option.required}
        pairs = combinations(samples, 2)
        return [pair for pair in pairs if not self.takes(command, *samples[pair[0]], *samples[pair[1]])]

    def command(self, name, about):
        if name == HELP:
            return Command(name, about, [TOPIC], [], [])
        text = self.help_text(name)
        usage = re.search(r"^Usage: .*", text, re.M).group()
        operands = [operand(*line) for line in section(text, "Arguments")]
        options = [option(*line, usage) for line in section(text, "Options")]
        command = Command(name, about, operands, options, [])
        command = command._replace(options=[it._replace(few=self.few(command, it)) for it in options])
        return command._replace(rivals=self.rivals(command))

    def read(self):
        text = self.help_text()
        commands = [self.command(*line) for line in section(text, "Commands")]
        return Program(commands, [option(*line) for line in section(text, "Options")])


def read(program):
    return Reader(program).read()


def alternatives(command):
    """The options in their order, but for --help, those that exclude each other together."""
    groups = []
    for it in command.options:
        if "--help" in it.names:
            continue
        excluded = [group for group in groups if all((other, it) in command.rivals for other in group)]
        if excluded:
            excluded[0].append(it)
        else:
            groups.append([it])
    return groups


def short(about):
    """What help says first."""
    return re.split(r"[:;] | [\[(]", about)[0]
