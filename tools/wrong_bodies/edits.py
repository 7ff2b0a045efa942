"""Reads edits, and makes them on the text of a crate."""

import os
import re
from dataclasses import dataclass
from pathlib import Path

from wrong_bodies.source import functions_of, homes_of, item_at, users_of

FOLDERS = ("must-fail", "wrong-bodies")
NAME = re.compile(r"[A-Za-z0-9_-][A-Za-z0-9_.-]*\.edit")


class BadEdit(Exception):
    """An edit that cannot be made, or that changes no body."""


@dataclass(frozen=True)
class Edit:
    """The file of an edit and its text, and the crate that it is of."""

    crate: str
    path: Path
    text: str

    @property
    def folder(self):
        """must-fail or wrong-bodies."""
        return self.path.parent.name

    @property
    def label(self):
        return f"{self.crate}/{self.path.stem}"


@dataclass(frozen=True)
class Change:
    """What an edit makes of a crate: the texts by path, the paths of each function that it changes, what tells the
    proofs of these apart, and whether it changes a constant, whose users these are."""

    texts: dict
    functions: tuple
    proofs: frozenset
    of_constant: bool


def edits_of(repository, crate):
    """The edits of a crate: all that stands in its folders for them, but .md files."""
    found = []
    for folder in FOLDERS:
        at = repository.folder(crate) / folder
        found += [it for it in sorted(at.rglob("*")) if it.is_file() and it.suffix != ".md"]
    return [Edit(crate, it, it.read_text(encoding="utf-8", errors="replace")) for it in found]


def pairs_of(text):
    """The pairs of an edit: a file's path, the old text and the new one."""
    path, old = "", None
    for line in text.split("\n"):
        if line.startswith("file: "):
            path = line[6:].strip()
        elif line.startswith("old: ") and old is None:
            old = line[5:]
        elif line.startswith("new:"):
            if not path or not old:
                raise BadEdit("a 'new:' line stands before any 'file:' or 'old:' line")
            yield path, old, line[4:].removeprefix(" ")
            old = None
        elif line.strip() and not line.startswith(("#", "--", "//")):
            raise BadEdit(f"a line of it is not read: {line.strip()[:60]}")
    if old is not None:
        raise BadEdit("an 'old:' line has no 'new:' line")


def source_of(folder, path):
    if os.path.normpath(path) != path or not path.startswith("src/"):
        raise BadEdit(f"its file {path} is not below src/")
    try:
        return (folder / path).read_text(encoding="utf-8")
    except OSError as error:
        raise BadEdit(f"there is no file {path}") from error


def sources_of(folder):
    return {str(it.relative_to(folder)): it.read_text(encoding="utf-8") for it in (folder / "src").rglob("*.rt")}


def changed_range(text, old, new):
    """The range of the text in which the old part differs from the new one."""
    front = len(os.path.commonprefix([old, new]))
    back = len(os.path.commonprefix([old[front:][::-1], new[front:][::-1]]))
    at = text.index(old)
    return at + front, at + len(old) - back


def change_of(edit, folder, over=None):
    """What an edit makes of the crate in this folder, over the texts that other edits made of it, by path."""
    if edit.folder not in FOLDERS or not NAME.fullmatch(edit.path.name):
        raise BadEdit("its name is not of letters, digits, _, - and . with .edit at the end, or it stands in a folder")
    texts, functions, of_constant = dict(over or {}), [], False
    homes = homes_of(sources_of(folder))
    for path, old, new in pairs_of(edit.text):
        text = texts.get(path) or source_of(folder, path)
        if text.count(old) != 1:
            raise BadEdit(f"an 'old:' text is in {path} {text.count(old)} times, and not once")
        if old == new:
            raise BadEdit("an 'old:' text is its 'new:' text")
        start, end = changed_range(text, old, new)
        around = [it for it in functions_of(text, path, homes) if it.start < start and end <= it.end]
        item = item_at(text, start)
        texts[path] = text.replace(old, new)
        if around:
            functions.append(min(around, key=lambda it: it.end - it.start))
        elif item and item[0] != "use":
            functions += users_of({**sources_of(folder), **texts}, item[1])
            of_constant = True
        elif not item:
            raise BadEdit("it changes something that is neither in a body nor a constant")
    if not functions:
        raise BadEdit("it changes no body, and no constant that a function names")
    paths = tuple(dict.fromkeys(it.paths for it in functions))
    return Change(texts, paths, frozenset(it.cycle or it.paths for it in functions), of_constant)


def misfits(repository, edits):
    """Which edits cannot be made, and why."""
    for edit in edits:
        try:
            change_of(edit, repository.folder(edit.crate))
        except BadEdit as error:
            yield edit, str(error)
