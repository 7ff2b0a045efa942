"""Finds functions and constants in the text of a source, and by which paths rattle may know a function."""

import re
from dataclasses import dataclass

# Text that holds no code: comments, strings, characters. A lifetime is none.
HIDDEN = re.compile(r"""//[^\n]*|/\*.*?\*/|b?"(?:\\.|[^"\\])*"|b?'(?:\\[^']*|[^'\\\n])'""", re.S)
BRACE = re.compile(r"[{}]")
BODY = re.compile(r"[{;]")
# What stands before a block of a contract.
CLAUSE = re.compile(r"(\b(requires|ensures)\*?(\s+[\w-]+)?|\bghost\s+[\w-]+\s*:)\s*\Z")
OWNER = re.compile(
    r"^[ \t]*(?:pub(?:\([\w ]+\))? +)?(?:unsafe +)?(impl|trait|mod)\b((?:[^;{\[]|\[[^\]]*\])*)\{", re.M)
ITEM = re.compile(
    r"^[ \t]*(?:pub(?:\([\w ]+\))? +)?(const|static|use)\s+(?!fn\b)(\w+)"
    r"(?:[^;\[]|\[(?:[^\[\]]|\[[^\]]*\])*\])*;", re.M)
CYCLE = re.compile(r"#\[cycle\((\w+)\)\]")
TYPE = re.compile(r"^(?:pub(?:\([\w ]+\))? +)?(?:struct|enum)\s+(\w+)", re.M)


@dataclass(frozen=True)
class Function:
    """A function's body, from brace to brace, the paths by which rattle may know it, the likeliest first, and the name of
    the cycle of calls that it is in, whose functions have one proof."""

    start: int
    end: int
    paths: tuple
    cycle: str


def blanked(text):
    """The text with spaces for all that is no code, each letter in its place."""
    return HIDDEN.sub(lambda it: re.sub(r"[^\n]", " ", it[0]), text)


def closing(code, at):
    """The place of the brace that closes the one at this place."""
    depth = 0
    for it in BRACE.finditer(code, at):
        depth += 1 if it[0] == "{" else -1
        if depth == 0:
            return it.start()
    return len(code)


def body_of(code, at):
    """The range of the body of the function whose name ends here, or None where it has none."""
    while True:
        found = BODY.search(code, at)
        # The ; of [u8; 4].
        while found and found[0] == ";" and code.count("[", at, found.start()) > code.count("]", at, found.start()):
            found = BODY.search(code, found.end())
        if not found or found[0] == ";":
            return None
        end = closing(code, found.start())
        if not CLAUSE.search(code[max(0, found.start() - 120) : found.start()]):
            return found.start(), end
        at = end + 1


def last_name(head):
    """The last plain name of a type or trait, as Key of &'a mut key::Key<T>."""
    while re.search(r"<[^<>]*>", head):
        head = re.sub(r"<[^<>]*>", "", head)
    names = re.findall(r"\w+", re.sub(r"'\w+|\bmut\b|\bdyn\b", "", head.partition(" where ")[0]))
    return names[-1] if names else ""


def without_parameters(head):
    """What stands in the head of an impl after its parameters."""
    depth = 0
    for place, sign in enumerate(head if head.startswith("<") else ""):
        depth += (sign == "<") - (sign == ">" and head[place - 1] != "-")
        if depth == 0:
            return head[place + 1 :]
    return head


def owners_of(code):
    """The impls, traits and modules of a source: each one's range, and the names that a path may have for it."""
    for it in OWNER.finditer(code):
        head = " ".join(it[2].split())
        if it[1] == "impl":
            trait, is_of, type_ = without_parameters(head).partition(" for ")
            type_ = last_name(type_ if is_of else trait)
            type_ = type_[:1].upper() + type_[1:]
            names = [type_ + last_name(trait), type_] if is_of else [type_]
        else:
            names = [last_name(head.partition(":")[0])]
        yield it.end(), closing(code, it.end() - 1), names


def modules_of(file):
    """The modules that a file is, whose path begins with src/."""
    modules = re.sub(r"(/mod)?\.rt\Z", "", file.removeprefix("src/")).split("/")
    return [it for it in modules if it not in ("lib", "main")]


def homes_of(sources):
    """The modules of each type by its name. The sources are by path."""
    return {it[1]: modules_of(path) for path, text in sources.items() for it in TYPE.finditer(blanked(text))}


def functions_of(text, file, homes=None):
    """The functions with a body in the text of a file, whose path begins with src/. Rattle knows a method by the modules
    of its type, which are its home."""
    code, found = blanked(text), []
    owners = list(owners_of(code))
    for it in re.finditer(r"\bfn\s+(\w+)", code):
        body = body_of(code, it.end())
        if body:
            ways = [[]]
            for start, end, names in owners:
                if start <= it.start() < end:
                    ways = [[*way, name] for name in names for way in ways]
            tops = [(modules_of(file), way) for way in ways]
            tops += [(homes[way[0]], way) for way in ways if way and way[0] in (homes or {})]
            paths = tuple(dict.fromkeys("::".join([*top, *way, it[1]]) for top, way in tops))
            cycle = CYCLE.search(code, max(code.rfind(sign, 0, it.start()) for sign in "{};") + 1, it.start())
            found.append(Function(*body, paths, cycle[1] if cycle else ""))
    return found


def proofs_of(sources):
    """The folders in proofs/ that the proofs of functions may be in, by what tells one proof from another: the name of a
    cycle of calls, or a function's paths. The sources are by path."""
    found, homes = {}, homes_of(sources)
    for file, text in sources.items():
        for it in functions_of(text, file, homes):
            if it.cycle:
                found[it.cycle] = ("/".join([*modules_of(file), f"+{it.cycle}"]),)
            else:
                found[it.paths] = tuple(path.replace("::", "/") for path in it.paths)
    return found


def item_at(text, at):
    """The kind and name of the constant or use item that stands here, or None."""
    items = [it for it in ITEM.finditer(blanked(text)) if it.start() <= at < it.end()]
    return items[-1].groups() if items else None


def users_of(sources, name):
    """The functions that name a constant, or a constant that names it. The sources are by path."""
    codes, names = {path: blanked(text) for path, text in sources.items()}, {name}
    while True:
        named = re.compile(rf"\b({'|'.join(sorted(names))})\b")
        items = [it for code in codes.values() for it in ITEM.finditer(code) if it[1] != "use"]
        more = {it[2] for it in items if named.search(it[0])}
        if more <= names:
            break
        names |= more
    homes = homes_of(sources)
    return [it for path, text in sorted(sources.items()) for it in functions_of(text, path, homes)
            if named.search(codes[path], it.start, it.end)]
