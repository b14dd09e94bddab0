"""The synopses of documents, which are made from the words of a program."""

from help_words import alternatives


def with_value(option, name):
    return f"{name} {option.value}" if option.value else name


def plain_option(group):
    """Options that exclude each other, each by its first name."""
    words = " | ".join(with_value(option, option.names[0]) for option in group)
    return words if group[0].required else f"[{words}]"


def plain_operand(operand):
    words = operand.name + ".." * operand.repeated
    return words if operand.required else f"[{words}]"


def plain_line(command):
    """A line of a command: first what it must have."""
    groups = alternatives(command)
    required = [plain_option(group) for group in groups if group[0].required]
    others = [plain_option(group) for group in groups if not group[0].required]
    return " ".join(["luntsegi", command.name, *required, *map(plain_operand, command.operands), *others])


def plain(program):
    return "".join(f"    {plain_line(command)}\n" for command in program.commands)
