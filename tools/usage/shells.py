"""The parts of completions that are made from the words of a program, for each shell."""

from help_words import short

# The names of operands and values that are files.
FILES = ("FILE", "OUT")


def is_file(option):
    return option.value in FILES


def names_of(options):
    return " ".join(name for option in options for name in option.names)


def names_where(program, holds):
    """The names of the options of which something holds, each once."""
    found = (name for command in program.commands for it in command.options if holds(it) for name in it.names)
    return list(dict.fromkeys(found))


# ---- bash

OPTIONS = "The options of a command or, without one, of the program."
VALUES = "The values of a command's option that has only a few."


def bash_function(comment, name, word, rows):
    """A function that looks at a word: what it does for each row of patterns."""
    lines = [f"        {' | '.join(patterns)}) {command} ;;" for patterns, command in rows]
    return "\n".join([f"# {comment}", f"{name}() {{", f"    case {word} in", *lines, "    esac", "}", ""])


def bash_test(program, comment, name, holds):
    return bash_function(comment, name, "$1", [(names_where(program, holds), "return 0"), (["*"], "return 1")])


def bash_options(program):
    rows = [([command.name], command.options) for command in program.commands if command.options]
    return [(patterns, f'echo "{names_of(options)}"') for patterns, options in [(['""'], program.options), *rows]]


def bash_values(program):
    """The few values that options have, each with the commands and names of these options."""
    places = {}
    for command in program.commands:
        for option in command.options:
            places.setdefault(option.few, []).extend(f'"{command.name} {name}"' for name in option.names)
    return [(patterns, f'echo "{" ".join(few)}"') for few, patterns in places.items() if few]


def bash(program):
    commands = " ".join(command.name for command in program.commands)
    functions = [
        f"_luntsegi_commands=({commands})\n",
        bash_function(OPTIONS, "_luntsegi_options", "$1", bash_options(program)),
        bash_function(VALUES, "_luntsegi_values", '"$1 $2"', bash_values(program)),
        bash_test(program, "Whether an option has a value.", "_luntsegi_has_value", lambda option: option.value),
        bash_test(program, "Whether that is a file.", "_luntsegi_has_file", is_file),
    ]
    return "\n".join(functions)


# ---- zsh


def zsh_quoted(text):
    return "'" + text.replace("'", "'\\''") + "'"


def zsh_text(text):
    """A text in brackets, or after a colon."""
    return "".join("\\" + letter if letter in "[]:\\" else letter for letter in text)


def zsh_values(name, few=()):
    """What is offered for an operand or a value by its name."""
    if name in FILES:
        return "_files"
    if name == "COMMAND":
        return "_luntsegi_commands"
    return f"({' '.join(few)})" if few else " "


def zsh_excluded(command, option):
    """What isn't offered after an option: all else after help, its other name, and its rivals."""
    if "--help" in option.names:
        return "(- *)"
    rivals = [it for pair in command.rivals if option in pair for it in pair if it != option]
    names = names_of([option, *rivals] if len(option.names) > 1 else rivals)
    return f"({names})" if names else ""


def zsh_option(command, option):
    excluded = zsh_excluded(command, option)
    about = f"[{zsh_text(short(option.about))}]"
    if option.value:
        about += f":{option.value}:{zsh_values(option.value, option.few)}"
    if len(option.names) > 1:
        return f"{zsh_quoted(excluded)}{{{','.join(option.names)}}}{zsh_quoted(about)}"
    mark = "=" * bool(option.value and option.names[0].startswith("--"))
    return zsh_quoted(excluded + option.names[0] + mark + about)


def zsh_operand(place, operand):
    return zsh_quoted(f"{'*' if operand.repeated else place}:{operand.name}:{zsh_values(operand.name)}")


def zsh_command(command):
    options = [zsh_option(command, option) for option in command.options]
    operands = [zsh_operand(place, operand) for place, operand in enumerate(command.operands, 1)]
    arguments = " \\\n                ".join(["_arguments -S", *options, *operands])
    return f"        {command.name})\n            {arguments}\n            ;;"


def zsh(program):
    commands = [f"        {zsh_quoted(f'{it.name}:{zsh_text(short(it.about))}')}" for it in program.commands]
    lines = [
        "_luntsegi_commands() {",
        "    local -a commands=(",
        *commands,
        "    )",
        "    _describe -t commands command commands",
        "}",
        "",
        "# The arguments of a command.",
        "_luntsegi_arguments() {",
        "    case $words[1] in",
        *map(zsh_command, program.commands),
        "    esac",
        "}",
    ]
    return "\n".join(lines) + "\n"


# ---- fish


def fish_quoted(text):
    return "'" + text.replace("\\", "\\\\").replace("'", "\\'") + "'"


def fish_option(option):
    names = " ".join(f"-l {name[2:]}" if name.startswith("--") else f"-s {name[1:]}" for name in option.names)
    values = " -r -F" if is_file(option) else " -x" if option.value else ""
    few = f" -a {fish_quoted(' '.join(option.few))}" if option.few else ""
    return f"{names}{values}{few} -d {fish_quoted(short(option.about))}"


def fish_options(program):
    """A line for each option, with the commands that have it with the same values and help."""
    commands = {}
    for command in program.commands:
        for option in command.options:
            commands.setdefault(option, []).append(command.name)
    for option in program.options:
        yield f"complete -c luntsegi -n __luntsegi_wants_first {fish_option(option)}"
    for option, names in commands.items():
        yield f"complete -c luntsegi -n '__luntsegi_is {' '.join(names)}' {fish_option(option)}"


def fish(program):
    names = names_where(program, lambda option: option.value)
    commands = [f"-a {it.name} -d {fish_quoted(short(it.about))}" for it in program.commands]
    lines = [
        "# Whether an option has a value.",
        "function __luntsegi_has_value",
        f"    contains -- $argv[1] {' '.join(names)}",
        "end",
        "",
        *[f"complete -c luntsegi -n __luntsegi_wants_command {words}" for words in commands],
        *fish_options(program),
    ]
    return "\n".join(lines) + "\n"
