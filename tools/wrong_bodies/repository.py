"""Reads crates.txt, and knows what a check of a crate reads."""

import hashlib
import os
import re
import shutil
import subprocess
from pathlib import Path

PARTS = ("src", "specs", "proofs")
# What a check needs of a kit, by the words of 'rattle check --help'.
FLAGS = ("--only", "--incremental", "--logic-built", "--antt-project", "--links")
# Members of a library's checked modules that change with a function's code, and with no contract.
OF_CODE = re.compile(rb"-proofs\..*\.(Code|Statement|Met|TheLink)\.oantt\Z|\Asum/")
# Files of a library that hold its code, and when it was made.
UNREAD = ("mir.json", "made.json", "format", "stamp")


class Kit:
    """The kit whose rt is on PATH."""

    def __init__(self):
        self.rt = shutil.which("rt")
        if not self.rt:
            raise SystemExit("wrong-bodies: the command rt is not on PATH")
        self.rattle = Path(self.rt).resolve().parent / "rattle"
        self.top = self.rattle.parent.parent

    def checks_functions(self):
        """Has its rattle the words that a check of a function alone takes?"""
        if not self.rattle.is_file():
            return False
        said = subprocess.run([self.rattle, "check", "--help"], capture_output=True, text=True, check=False).stdout
        return all(it in said for it in FLAGS)

    def digest(self):
        """A sum of the kit and of this script."""
        found = self.rattle.stat()
        own = [it.read_bytes() for it in sorted(Path(__file__).parent.glob("*.py"))]
        parts = ((self.top / "KIT-ID").read_bytes(), found.st_size, found.st_mtime_ns, own)
        return hashlib.sha256(repr(parts).encode()).hexdigest()


class Repository:
    """A repository's crates, as crates.txt names them, the lowest first."""

    def __init__(self, top):
        self.top = Path(top).resolve()
        # By name, the words before the colon, and the libraries after it.
        self.listed, self.of_libraries = {}, {}
        for line in (self.top / "crates.txt").read_text(encoding="utf-8").splitlines():
            left, _, right = line.partition("#")[0].partition(":")
            if left.strip():
                name, *said = left.split()
                self.listed[name] = said, right.split()

    def folder(self, name):
        return self.top / "crates" / name

    def library(self, name):
        return self.folder(name) / "out" / "rlib" / f"{name}.rlib"

    def below(self, name):
        """The crates that a crate stands on, the lowest first."""
        needed = {name}
        for it in reversed(self.listed):
            if it in needed:
                needed.update(self.listed[it][1])
        return [it for it in self.listed if it in needed and it != name]

    def lacking(self, name):
        """The crates below one whose libraries rt ci has not left."""
        return [it for it in self.below(name) if not (self.library(it) / "format").is_file()]

    def words(self, name, kit):
        """The words of rattle check, as rt gives them."""
        said, needed = self.listed[name]
        root = "src/main.rt" if (self.folder(name) / "src/main.rt").is_file() else "src/lib.rt"
        words = ["--crate-name", name, root]
        for it in ["std", *needed]:
            at = self.library(it) if it in self.listed else kit.top / "rlibs" / f"{it}.rlib"
            words += ["--extern", f"{it}={at}"]
        for it in [kit.top / "rlibs", *(self.library(it).parent for it in self.below(name))]:
            words += ["-L", f"dependency={it}"]
        words += ["--antt-project", f"{kit.top}/rattle/logic/antt-project.json"]
        words += ["--logic-built", f"{kit.top}/logic_built", "--links", f"{name}="]
        return words + ["--crate-type", "staticlib"] * ("staticlib" in said)

    def digest(self, name):
        """A sum of all that a check of a crate reads. Where a body below changes, and no contract, it stays."""
        found = hashlib.sha256(repr((name, self.listed[name])).encode())
        for part in PARTS:
            for path in files_below(self.folder(name) / part):
                found.update(f"{path.relative_to(self.top)}\n{sha256(path.read_bytes())}\n".encode())
        for it in self.below(name):
            found.update(f"{it} {self.library_digest(it)}\n".encode())
        return found.hexdigest()

    def library_digest(self, name):
        """A sum of what a check over a library reads of it."""
        if name not in self.of_libraries:
            top, found = self.library(name), hashlib.sha256()
            for path in files_below(top):
                if path.name not in UNREAD and "below" not in path.relative_to(top).parts:
                    text = path.read_bytes()
                    stated = contracts_of(text) if path.name == "checked.a" else text
                    found.update(f"{path.relative_to(top)}\n{sha256(stated)}\n".encode())
            self.of_libraries[name] = found.hexdigest()
        return self.of_libraries[name]


def files_below(folder):
    return sorted(Path(at) / name for at, _, names in os.walk(folder) for name in names)


def sha256(text):
    return hashlib.sha256(text).hexdigest()


def contracts_of(archive):
    """The members of a library's checked modules, each by its sum, but those that change with a function's code."""
    at, names, found = 8, b"", []
    while at + 60 <= len(archive):
        name, size = archive[at : at + 16].strip(), int(archive[at + 48 : at + 58])
        text = archive[at + 60 : at + 60 + size]
        at += 60 + size + size % 2
        if name == b"//":
            names = text
            continue
        if name[:1] == b"/" and name[1:].isdigit():
            start = int(name[1:])
            name = names[start : names.index(b"/\n", start)]
        if not OF_CODE.search(name):
            found.append(name + b" " + hashlib.sha256(text).digest())
    return b"\n".join(found)
