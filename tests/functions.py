"""The functions of a crate's sources, as the layout of `rt fmt` shows them: a body is closed by a `}` below its `fn`."""
import re

HEAD = re.compile(r"( *)(?:pub(?:\([^)]*\))? )?fn (\w+)")
IMPL = re.compile(r"impl(?:<.*?>)? (?:(?:\w+::)*(\w+)(?:<(?:\w+::)*(\w+).*>)? for )?(?:\w+::)*(\w+)")
# an `impl` of a generic type at one argument, which stands in its path: `Parts+Place` of `impl Parts<Place>`
AT_ONE = re.compile(r"impl (?:(?:\w+::)*\w+(?:<.*>)? for )?(?:\w+::)*(\w+)<(?:\w+::)*(\w+)> \{")
TYPE = re.compile(r"^(?:pub(?:\([^)]*\))? )?(?:struct|enum|union) (\w+)", re.M)
CONST = re.compile(r"(?:pub(?:\([^)]*\))? )?(?:const|static) (\w+)")


class Function:
    """A function with a body: its path as a check prints it, and the lines where it begins, has its `fn`, opens its body and ends."""

    def __init__(self, path, begin, head, opened, end):
        self.path, self.begin, self.head, self.opened, self.end = path, begin, head, opened, end


def module_of(file):
    """The path of the module that a file of src/ holds."""
    names = file.removeprefix("src/").removesuffix(".rt").split("/")
    return [] if names in (["lib"], ["main"]) else names


def opening(lines, begin, indent):
    """The line that opens the body of the function that begins here, or None where it has no body."""
    for at in range(begin, len(lines)):
        line, ends = lines[at], at == begin or lines[at].startswith(indent + ")")
        if line in (indent + "{", indent + "{}") or ends and line.endswith((" {", " {}")):
            return at
        if ends and line.endswith(";") or at > begin and (HEAD.match(line) or line.startswith("}")):
            return None
    return None


def first_line(lines, at):
    """The line where an item begins, with the comments and the attributes above it."""
    while at and lines[at - 1].strip() and not lines[at - 1].endswith(("{", "}", ";")):
        at -= 1
    return at


def homes(texts):
    """The modules that declare a type of a name, by the names."""
    found = {}
    for file, text in texts.items():
        for name in TYPE.findall(text):
            found.setdefault(name, []).append(module_of(file))
    return found


def block_of(found, file, types):
    """The path of an `impl` block: methods of a type, and its `drop`, are told by the module of the type."""
    trait, argument, name = found.groups()
    here = module_of(file)
    at_one = AT_ONE.match(found.string)
    if at_one:
        name = ("" if trait else "+").join(at_one.groups())
    if at_one and not trait:
        return [*here, name]
    if trait in (None, "Drop"):
        modules = types.get(name, [here])
        return [*(here if here in modules else modules[0]), name]
    return [*here, name + trait + (argument or "")]


def functions(file, text, types):
    """The functions with bodies of a file."""
    lines, block, found, at = text.split("\n"), [], [], 0
    while at < len(lines):
        line = lines[at]
        impl, head = IMPL.match(line), HEAD.match(line)
        if impl or line.startswith("}"):
            block = block_of(impl, file, types) if impl else []
        opened = opening(lines, at, head[1]) if head else None
        if opened is not None:
            end = opened if lines[opened].endswith("{}") else lines.index(head[1] + "}", opened)
            path = block if head[1] else module_of(file)
            found.append(Function("::".join([*path, head[2]]), first_line(lines, at), at, opened, end))
            at = end
        at += 1
    return found


def all_functions(texts):
    """The functions with bodies of a crate, and of each the file where it stands."""
    types = homes(texts)
    return [(file, it) for file, text in texts.items() for it in functions(file, text, types)]


def constant_at(text, line):
    """The name of the constant in whose item a line stands, if it stands in one."""
    for above in reversed(text.split("\n")[: line + 1]):
        found = CONST.match(above)
        if found:
            return found[1]
        if not above.startswith((" ", "]", "}")):
            return None
    return None


def changed_at(texts, file, line):
    """The functions that a change of a line of a file changes: that around it, or those that name the constant around it."""
    every = all_functions(texts)
    around = [it.path for home, it in every if home == file and it.begin <= line <= it.end]
    name = None if around else constant_at(texts[file], line)
    return around or [it.path for home, it in every if name and has_name(texts[home], it, name)]


def has_name(text, function, name):
    """Whether a function's text has this name."""
    return re.search(rf"\b{name}\b", own_text(text, function)) is not None


def own_text(text, function):
    """A function's text, from its `fn` on."""
    return "\n".join(text.split("\n")[function.head : function.end + 1])


def emptied(texts, kept):
    """The texts in which each function but those that are kept runs for ever, line by line, and the paths of these."""
    made, paths = {file: text.split("\n") for file, text in texts.items()}, []
    for file, it in reversed(all_functions(texts)):
        if it.path not in kept and it.opened + 1 < it.end:
            lines = made[file]
            for at in range(it.opened + 1, it.end):
                lines[at] = ""
            lines[it.opened + 1] = lines[it.end].replace("}", "    loop {}")
            paths.append(it.path)
    return {file: "\n".join(lines) for file, lines in made.items()}, paths
