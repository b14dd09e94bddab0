"""Which function of a source a place is in: by the end of the name that the prover prints, `module::function` or, if it
is one of a type, `Type::function`."""

import re

FUNCTION = re.compile(r"^( *)(?:pub(?:\([a-z]+\))? )?(?:const )?fn (\w+)", re.M)
# The head of an `impl` of a type's own functions, or of a trait for a type.
IMPL = re.compile(r"^impl(?:<.*?>)? (?:([A-Z]\w*)(<[^{]*?>)? for )?&?(?:'\w+ )?(?:mut )?([A-Z]\w*)", re.M)
TRAIT = re.compile(r"^(?:pub )?trait (\w+)", re.M)


def function_at(file, source, place):
    """The end of the name of the function that the place is in; None if it is in none."""
    heads = [it for it in FUNCTION.finditer(source) if it.start() <= source.find("\n", place)]
    if not heads or place > end_of(source, heads[-1]):
        return None
    head = heads[-1]
    if head[1]:
        return f"{owner_of(source, head.start())}::{head[2]}"
    module = file.removeprefix("src/").removesuffix(".rt").split("/")
    return "::".join([*(it for it in module if it not in ("lib", "main")), head[2]])


def end_of(source, head):
    """Where the function ends that begins with this head: at the brace below it that no other part follows."""
    ends = re.compile(rf"^{head[1]}\}}(?!\n{head[1]}(?:\{{|requires|ensures|ghost))", re.M)
    found = ends.search(source, head.end())
    return found.end() if found else len(source)


def owner_of(source, place):
    """What an indented function is one of: a type, a trait, or a type and the trait that it implements, with its types."""
    heads = [
        (it.start(), "".join([it[3], it[1] or "", *re.findall(r"[A-Z]\w*", it[2] or "")]))
        for it in IMPL.finditer(source, 0, place)
    ]
    heads += [(it.start(), it[1]) for it in TRAIT.finditer(source, 0, place)]
    return max(heads)[1]
