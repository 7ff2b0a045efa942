"""A room in which the program is run with something refused, and what no such run may do."""
import collections
import dataclasses
import hashlib
import json
import os
import pathlib
import re
import resource
import shutil
import subprocess

from images import image

# A run that takes this number of seconds hangs.
SECONDS = 20
# No run writes a core file, a file larger than this, or takes more memory than this, in bytes.
LIMITS = {resource.RLIMIT_CORE: 0, resource.RLIMIT_FSIZE: 1 << 24, resource.RLIMIT_AS: 1 << 30}
DIRECTORY = "OUT/DICOMDIR"
OUTPUT = "the output"
# More allocations than any run asks for: none is refused, and all are counted.
NO_ALLOCATION = "1000000000"


@dataclasses.dataclass(frozen=True)
class Command:
    """A command line of the program. Where OUT is there before the run, it is a copy of the folder `before`."""

    name: str
    words: str
    before: str = ""


COMMANDS = [
    Command("index of one image", "index OUT a.dcm --uid 2.25.0"),
    Command("index of one image, with hints", "index OUT a.dcm --uid 2.25.0 --verbose"),
    Command("index of three images and a text", "index OUT a.dcm b.dcm text c.dcm --uid 2.25.0"),
    Command("index of an image and a text, which is refused", "index OUT a.dcm text --uid 2.25.0 --strict"),
    Command("index of a list of names, which makes nothing",
            "index OUT a.dcm --files0-from names --dry-run --uid 2.25.0"),
    Command("index of other bytes of an image, and of two names of a patient",
            "index OUT a.dcm noted.dcm named.dcm --uid 2.25.0"),
    Command("index of images that clash, which is refused", "index OUT a.dcm clash.dcm --uid 2.25.0"),
    Command("index that keeps going", "index OUT a.dcm text b.dcm --keep-going --uid 2.25.0"),
    Command("index that keeps going, which makes nothing",
            "index OUT a.dcm text b.dcm c.dcm --keep-going --dry-run --uid 2.25.0"),
    Command("index into a folder that is there", "index OUT b.dcm --uid 2.25.0", before="OTHER"),
    Command("index into a folder that has a set", "index OUT a.dcm --uid 2.25.0", before="SETA"),
    Command("merge of two sets", "merge OUT SETA SETB --uid 2.25.0"),
    Command("merge of two sets, with hints", "merge OUT SETA SETB --uid 2.25.0 --verbose"),
    Command("merge of two sets by hard links, with hints", "merge OUT SETA SETB --link --uid 2.25.0 --verbose"),
    Command("merge of two sets by hard links", "merge OUT SETA SETB --link --uid 2.25.0"),
    Command("merge of two sets with other bytes of an image, which is refused",
            "merge OUT SETA SETN --uid 2.25.0 --strict"),
    Command("merge of sets with a withdrawn image and a record that is not reached, which is refused",
            "merge OUT SETA SETU SETW --uid 2.25.0 --strict"),
    Command("withdraw of one image of two", "withdraw OUT SETA 1.2.3.1000 1.2.3.1 --uid 2.25.0"),
    Command("stage of three images and a text", "stage OUT a.dcm text b.dcm c.dcm"),
    Command("stage of a list of names, with hints", "stage OUT a.dcm --files0-from names --verbose"),
    Command("stage into a folder that is there, which is refused", "stage OUT a.dcm", before="OTHER"),
    Command("publish of two piles", "publish OUT PILEA PILEB --uid 2.25.0"),
    Command("publish of two piles by hard links, with hints",
            "publish OUT PILEA PILEB --link --uid 2.25.0 --verbose"),
    Command("publish of two piles, which makes nothing", "publish OUT PILEA PILEB --dry-run --uid 2.25.0"),
    Command("publish of two piles, which is refused", "publish OUT PILEA PILEB --uid 2.25.0 --strict"),
    Command("publish of a pile that is cut, which is refused", "publish OUT PILEA PILEC --uid 2.25.0"),
    Command("list of two images", "list SETA"),
    Command("list of two images at length", "list --long SETA"),
    Command("check of two images", "check SETA"),
    Command("check of two images and what they say", "check --keys SETA"),
    Command("check of two images that have no digests", "check --strict SETD"),
    Command("index of three images and a text, in JSON", "index OUT a.dcm b.dcm text c.dcm --uid 2.25.0 --json"),
    Command("index of images that clash, which is refused, in JSON", "index OUT a.dcm clash.dcm --uid 2.25.0 --json"),
    Command("merge of sets with withdrawn images, which is refused, in JSON",
            "merge OUT SETA SETN SETU SETW --uid 2.25.0 --strict --json"),
    Command("stage of two images, in JSON", "stage OUT a.dcm c.dcm --json"),
    Command("list of two images at length, in JSON", "list --long --json SETA"),
    Command("check of two images, in JSON", "check --json SETA"),
]


@dataclasses.dataclass(frozen=True)
class Call:
    """A call that a run has made: its name, what it answered, and the path that it was about. Of a hard link that is
    the new path, and `old` the one of the file."""

    name: str
    answer: int
    path: str
    is_refused: bool
    old: str = ""


@dataclasses.dataclass(frozen=True)
class Run:
    """What a run has printed and left."""

    # None where it hangs.
    status: int
    out: str
    # Without the lines of hints.
    err: str
    hints: list
    # The bytes of each file in OUT by its path, and None for a folder.
    left: dict
    # The path of each hard link in OUT to a given file, and that file's path.
    links: dict
    calls: list
    allocations: int
    refused: int

    def said(self):
        """Its status and what it has printed, in one line."""
        return " ".join([str(self.status)] + (self.out + self.err).splitlines())

    def linked(self):
        """The path of each hard link that this run has made, and the path of its file."""
        return {call.path: call.old for call in self.calls if call.name == "link" and call.answer == 0}

    def kind_as(self, other):
        """The kind of a run that has printed and left what another one has, and may have copied what that one has
        linked."""
        return "as if undisturbed" if self.links == other.links else "copied"

    def is_as(self, other):
        """Has it printed and left what another one has?"""
        return (self.status, self.out, self.err, self.left) == (other.status, other.out, other.err, other.left)


@dataclasses.dataclass(frozen=True)
class Case:
    """A command, its undisturbed run, and what is in OUT before."""

    command: Command
    right: Run
    before: dict


@dataclasses.dataclass(frozen=True)
class Result:
    """What came of a run: a line that tells all of it, its kind, what stands of a new directory, and what is wrong."""

    line: str
    kind: str
    stands: str
    wrong: list


def tree(folder):
    """The bytes of each file in the folder by its path, and None for each folder."""
    found = {}
    for top, _, names in os.walk(folder):
        found[top] = None
        for name in names:
            path = os.path.join(top, name)
            found[path] = pathlib.Path(path).read_bytes()
    return found


def calls_of(log):
    """The calls that the library has written to its log."""
    calls, paths = [], {"1": OUTPUT}
    for line in log.splitlines():
        name, answer, of = line.lstrip("!").split(" ", 2)
        path, _, old = of.partition(" ") if name == "link" else (of, "", "")
        if name in ("fstat", "read", "write", "fsync", "close"):
            path = paths[of]
        if name in ("open", "create") and int(answer) >= 0:
            paths[answer] = path
        calls.append(Call(name, int(answer), path, line.startswith("!"), old))
    return calls


def begin(command):
    """Makes OUT as it is before the command."""
    shutil.rmtree("OUT", ignore_errors=True)
    if command.before:
        shutil.copytree(command.before, "OUT")


def links_of(given):
    """The path of each hard link in OUT to one of these files, and that file's path."""
    paths = {node: os.path.relpath(path) for path, _, node, _, _ in given}
    files = (os.path.join(top, name) for top, _, names in os.walk("OUT") for name in names)
    nodes = ((path, os.stat(path).st_ino) for path in files)
    return {path: paths[node] for path, node in nodes if node in paths}


def look():
    """All files that are there and are not to be changed: paths, modes, times and digests. How many names a file has
    is no part of this."""
    found = []
    for top, folders, names in os.walk("."):
        if top == "." and "OUT" in folders:
            folders.remove("OUT")
        for name in names:
            path = os.path.join(top, name)
            seen = os.stat(path)
            digest = hashlib.sha256(pathlib.Path(path).read_bytes()).digest()
            found.append((path, seen.st_mode, seen.st_ino, seen.st_mtime_ns, digest))
    return sorted(found)


def hide_image(path):
    """Takes away the offset that leads from the series of a directory to its images: (0004,1420), whose value ends 8
    bytes before the value of (0004,1430)."""
    directory = bytearray(pathlib.Path(path).read_bytes())
    end = directory.index(b"SERIES") - 8
    directory[end - 4:end] = bytes(4)
    pathlib.Path(path).write_bytes(directory)


def in_words(text):
    """What lines of JSON say: FAULT with its hints, and what is found of files, in words; all others as they stand."""
    said = []
    for line in text.splitlines(keepends=True):
        try:
            one = json.loads(line)
        except ValueError:
            said.append(line)
            continue
        if one["line"] == "FAULT":
            said.append(f"FAULT {one['path'] or '-'}: {one['fault']['words']}\n")
            said.extend(f"  {name}: {one[name]}\n" for name in ("cause", "help") if name in one)
        elif one["line"] in ("MISSING", "UNREADABLE"):
            said.append(f"{one['line']} {one['file']}\n")
        else:
            said.append(line)
    return "".join(said)


def text_of(path):
    """What a file says."""
    return pathlib.Path(path).read_text(encoding="utf-8", errors="replace")


class Room:
    """A folder with sources and file-sets, in which the program is run, one run at a time. It becomes the current
    folder of the process, which gets the limits of a run."""

    def __init__(self, program, library, example, folder):
        self.program, self.library = program, library
        self.log, self.counts, self.out, self.err = (f"{folder}.{name}" for name in ("log", "counts", "out", "err"))
        for limit, most in LIMITS.items():
            hard = resource.getrlimit(limit)[1]
            resource.setrlimit(limit, (most if hard == resource.RLIM_INFINITY else min(most, hard), hard))
        os.mkdir(folder)
        os.chdir(folder)
        first = pathlib.Path(example).read_bytes()
        pathlib.Path("a.dcm").write_bytes(image(first, 0))
        pathlib.Path("b.dcm").write_bytes(image(first, 6, is_large=True))
        pathlib.Path("c.dcm").write_bytes(image(first, 1))
        pathlib.Path("text").write_bytes(b"no image\n")
        pathlib.Path("noted.dcm").write_bytes(image(first, 0).replace(b"DOE^JOHN", b"ROE^JANE"))
        pathlib.Path("named.dcm").write_bytes(image(first, 3).replace(b"DOE^JOHN", b"ROE^JANE"))
        pathlib.Path("clash.dcm").write_bytes(image(first, 6).replace(b"LO\x02\0P1", b"LO\x02\0P9"))
        pathlib.Path("names").write_bytes(b"text\0b.dcm")
        os.mkdir("OTHER")
        pathlib.Path("OTHER/text").write_bytes(b"another file\n")
        for words in ("index SETA a.dcm b.dcm", "index SETB b.dcm c.dcm", "index SETN noted.dcm", "index SETU c.dcm",
                      "stage PILEA a.dcm text", "stage PILEB c.dcm b.dcm a.dcm", "stage PILEC c.dcm"):
            subprocess.run([program] + words.split(), check=True, stdout=subprocess.DEVNULL)
        # The digests of a directory belong to their creator: with another one no record has any.
        shutil.copytree("SETA", "SETD")
        directory = pathlib.Path("SETD/DICOMDIR")
        directory.write_bytes(directory.read_bytes().replace(b"DD FILESET 1", b"XX FILESET 1"))
        subprocess.run([program, "withdraw", "SETW", "SETB", "1.2.3.1000"], check=True, stdout=subprocess.DEVNULL)
        hide_image("SETU/DICOMDIR")
        os.truncate("PILEC/STAGED", 100)
        self.given = look()

    def run(self, command, **settings):
        """Runs the command, with these settings of the library."""
        begin(command)
        for path in (self.log, self.counts):
            pathlib.Path(path).write_bytes(b"")
        settings = {"REFUSE_ALLOCATION": NO_ALLOCATION, **settings}
        settings.update(LD_PRELOAD=self.library, REFUSE_LOG=self.log, REFUSE_COUNTS=self.counts)
        with open(self.out, "wb") as out, open(self.err, "wb") as err:
            try:
                status = subprocess.run([self.program] + command.words.split(), env=settings, timeout=SECONDS,
                                        stdin=subprocess.DEVNULL, stdout=out, stderr=err, check=False).returncode
            except subprocess.TimeoutExpired:
                status = None
        counts = re.fullmatch(r"armed 1 allocations (\d+) refused (\d+)\n", text_of(self.counts))
        allocations, refused = (int(counts[1]), int(counts[2])) if counts else (0, 0)
        calls = calls_of(text_of(self.log))
        refused += sum(call.is_refused for call in calls)
        left, links = tree("OUT"), links_of(self.given)
        read = in_words if "--json" in command.words else str
        said = read(text_of(self.err)).splitlines(keepends=True)
        err, hints = [[line for line in said if line.startswith("  ") == is_hint] for is_hint in (False, True)]
        return Run(status, read(text_of(self.out)), "".join(err), hints, left, links, calls, allocations, refused)

    def learn(self, command):
        """Runs a command undisturbed."""
        begin(command)
        before = tree("OUT")
        return Case(command, self.run(command), before)

    def touched(self):
        """Says where a given file is not as it was."""
        now = look()
        is_touched, self.given = now != self.given, now
        return ["a given file is touched"] if is_touched else []


def harm(case, run):
    """What no run may do, whatever is refused: nothing where all is well."""
    found, right = [], case.right
    if run.status is None:
        found.append("it hangs")
    elif run.status not in (0, 1, 3):
        found.append(f"it ends with {run.status}")
    for path, content in case.before.items():
        if run.left.get(path, b"") != content:
            found.append(f"{path} was there, and is changed")
    for path, content in run.left.items():
        if path not in right.left:
            found.append(f"{path} is not of the file-set")
        elif content is not None and not right.left[path].startswith(content):
            found.append(f"{path} is no front of what it has to be")
        elif path in run.links and content != right.left[path]:
            found.append(f"{path} is a hard link, and is not whole")
    if run.links != run.linked():
        found.append("the hard links are not those that the calls have made")
    # With --verbose the sum of the sources follows work that is done.
    if run.err not in ("", right.err) and right.status == 0 and right.out and run.out == right.out:
        found.append("it says that the work is done, and a fault")
    if run.refused == 0:
        found.append("nothing was refused")
    return found + directory_harm(case, run)


def directory_harm(case, run):
    """What is wrong of a new directory."""
    found = []
    content = run.left.get(DIRECTORY)
    if content is None or DIRECTORY in case.before or run.is_as(case.right):
        return found
    is_set_whole = run.left == case.right.left
    if content == case.right.left[DIRECTORY] and not is_set_whole:
        found.append("the directory is whole, and the rest is not")
    # No line has to tell where the output failed: then the set is whole.
    is_named = run.err in (f"FAULT {DIRECTORY}: 96 Unsent\n", "FAULT OUT: 96 Unsent\n")
    if not is_named and not (run.err == "" and is_set_whole):
        found.append("a directory stands there, and the line does not tell it")
    return found


def standing(case, run):
    """What stands of a new directory after a run that was refused: empty where it was not, or makes none."""
    if run.status != 1 or DIRECTORY in case.before or DIRECTORY not in case.right.left:
        return ""
    content = run.left.get(DIRECTORY)
    if content is None:
        return "no directory"
    return "a whole directory" if content == case.right.left[DIRECTORY] else "a cut directory"


def result_of(case, what, run, kind, wrong):
    """What came of a run in which something was refused, which `what` names."""
    return Result(f"{case.command.name} | {what} | {run.said()}", kind, standing(case, run), wrong)


def tell_standing(results):
    """Tells what stands after the runs that were refused."""
    stands = [result.stands for _, result in results if result.stands]
    if stands:
        print(f"    {len(stands)} of them end with 1: {count_kinds(stands)}")


def count_kinds(kinds):
    """How often each kind is there, in words."""
    return ", ".join(f"{count} {kind}" for kind, count in sorted(collections.Counter(kinds).items()))
