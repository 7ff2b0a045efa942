"""Two runs beside each other: 'dicomdir index' and dicomdir-parallel on the same words, in two folders with the same
files. For parallel."""
import os
import pathlib
import re
import shutil
import stat
import struct
import subprocess
import sys
import threading

TOP = pathlib.Path(__file__).resolve().parent.parent.parent
PARALLEL = str(TOP / "scripts/dicomdir-parallel")
CT = "1.2.840.10008.5.1.4.1.1.2"
# The last line of a run that ended early.
NAMED = re.compile(rb"dicomdir-parallel: [1-9][0-9]* of [1-9][0-9]* parts are in (.*/\.dicomdir-parallel\.\w{8}): "
                   rb"--resume goes on with them\n\Z")
# Before a command: root may read what its rights allow, as others may.
BOUND = ["setpriv", "--bounding-set=-dac_override,-dac_read_search", "--"] if os.geteuid() == 0 else []
# What is run in place of the program. It notes the command, and waits in one that begins with the words of PAUSE_AT.
NOTING = """#!/bin/sh
printf '%s\\n' "$1 $2 $3" | head -n 1 >>"$CALLS"
case "$1 $2 $3" in "$PAUSE_AT"*) : >"$CALLS.paused"; exec sleep 600 ;; esac
sleep "$DELAY"
exec "$REAL" "$@"
"""


def element(group, number, kind, value):
    """An element in Explicit VR."""
    value = value if isinstance(value, bytes) else value.encode("latin-1")
    value += (b"\0" if kind in ("UI", "OB") else b" ") * (len(value) % 2)
    size = struct.pack("<xxI" if kind == "OB" else "<H", len(value))
    return struct.pack("<HH", group, number) + kind.encode() + size + value


def image(instance, patient="P1", name="DOE^JOHN", study=None, series=None, more="1"):
    """The bytes of an image. Its patient has a study of its own, where none is named; more is the number of the
    image."""
    study = study or f"1.2.{sum(patient.encode('latin-1')) + 1}"
    meta = element(2, 1, "OB", b"\0\1") + element(2, 2, "UI", CT) + element(2, 3, "UI", instance)
    meta += element(2, 16, "UI", "1.2.840.10008.1.2.1")
    data = [(8, 0x16, "UI", CT), (8, 0x18, "UI", instance), (8, 0x20, "DA", "20240115"), (8, 0x30, "TM", "101500"),
            (8, 0x60, "CS", "CT"), (0x10, 0x10, "PN", name), (0x10, 0x20, "LO", patient), (0x20, 0xD, "UI", study),
            (0x20, 0xE, "UI", series or study + ".1"), (0x20, 0x10, "SH", "1"), (0x20, 0x11, "IS", "1"),
            (0x20, 0x13, "IS", more)]
    head = bytes(128) + b"DICM" + element(2, 0, "UL", struct.pack("<I", len(meta))) + meta
    return head + b"".join(element(*one) for one in data)


def tree(folder):
    """All that stands in a folder: of each name its kind, its rights, its names, and its bytes, where they may be read."""
    standing = {}
    for path in sorted(pathlib.Path(folder).rglob("*")):
        about = path.lstat()
        what = [stat.filemode(about.st_mode), about.st_uid, about.st_gid]
        if path.is_symlink():
            what.append(os.readlink(path))
        elif path.is_file():
            what += [about.st_nlink, path.read_bytes() if os.access(path, os.R_OK) else None]
        standing[str(path.relative_to(folder))] = what
    return standing


def calls_of(path):
    """How the work was done: in parts; by one process; or by one process after the parts."""
    calls = pathlib.Path(path).read_text(errors="replace").splitlines() if os.path.exists(path) else []
    if not any(call.startswith("stage ") for call in calls):
        return "one"
    calls = [call for call in calls if not call.startswith("list")]
    return "parts" if calls[-1].startswith("publish ") else "back"


class Beside:
    """A folder for runs beside each other, and what was found. Is GNU parallel there, for hosts?"""

    def __init__(self, work, program, hosts):
        self.work, self.program, self.hosts = pathlib.Path(work), str(program), hosts
        self.noting = self.work / "dicomdir"
        self.noting.write_text(NOTING)
        self.noting.chmod(0o755)
        self.cases, self.faults = 0, 0

    def fault(self, text):
        """Notes what is not as wanted."""
        print(f"tests/scripts/parallel: {text}", file=sys.stderr)
        self.faults += 1

    def environment(self, folder, **more):
        """The environment of a run that notes its commands."""
        noted = {"DICOMDIR_PROGRAM": str(self.noting), "REAL": self.program, "CALLS": f"{folder}.calls",
                 "PAUSE_AT": "never", "DELAY": "0"}
        return {**os.environ, **noted, **more}

    def make(self, folder, prepare, inner="w"):
        """A new folder, with what a case wants in one in it. What stood there is removed, whatever its rights are."""
        for path, names, _ in os.walk(folder):
            for name in names:
                if not os.path.islink(f"{path}/{name}"):
                    os.chmod(f"{path}/{name}", 0o700)
        shutil.rmtree(folder, ignore_errors=True)
        pathlib.Path(f"{folder}.calls").unlink(missing_ok=True)
        inside = folder / inner
        inside.mkdir(parents=True)
        prepare(inside)
        return inside

    def run(self, words, inside, environment, given=b"", umask=0o022, closed=(), full=False, bound=False):
        """Runs a command in a folder, bound to the rights of files where that is said. Gives its status, output and
        errors."""
        if closed:
            words = ["sh", "-c", 'exec "$@" ' + " ".join(f"{number}>&-" for number in closed), "sh", *words]
        if bound:
            words = [*BOUND, *words]
        with open("/dev/full", "wb") as device:
            done = subprocess.run(words, cwd=inside, env=environment, input=given, timeout=600, umask=umask,
                                  stdout=device if full else subprocess.PIPE, stderr=subprocess.PIPE, check=False)
        return done.returncode, done.stdout, done.stderr

    def compare(self, name, words, prepare, how="parts", own=("-j", "2"), inner="w", more=None, left=False, **given):
        """Compares both runs in all that they say and make, and how the work was done, where that is known. Where it is
        said, the run left its parts, and named them."""
        # Cases are tried at the same time.
        room = self.work / str(threading.get_ident())
        one, two = room / "one", room / "two"
        begun = self.make(one, prepare, inner)
        wanted = self.run([self.program, "index", *words], begun, {**os.environ, **(more or {})}, **given)
        wanted += (tree(one),)
        begun = self.make(two, prepare, inner)
        environment = self.environment(two, **(more or {}))
        found = self.run([PARALLEL, *own, *words], begun, environment, **given)
        if left:
            found = self.take_left(name, two, found)
        found += (tree(two),)
        for part, one_of, other in zip(("status", "output", "errors", "files"), wanted, found):
            if one_of != other:
                self.fault(f"{name}: {part}: {short(one_of, other)} wanted, {short(other, one_of)} found")
        done = calls_of(f"{two}.calls")
        if how and done != how:
            self.fault(f"{name}: the work was done so: {done}, and not so: {how}")
        self.cases += 1
        return wanted


    def take_left(self, name, room, found):
        """Removes the parts that a run left. Gives what it said but for their folder."""
        folders = list(room.rglob(".dicomdir-parallel.*"))
        said = NAMED.search(found[2])
        if len(folders) != 1 or not said or os.fsdecode(said[1]) != str(folders[0]):
            self.fault(f"{name}: no parts are left, or they are not named: {folders} {found}")
            return found
        shutil.rmtree(folders[0])
        return found[0], found[1], found[2][:said.start()]


def skip(part, why):
    """Names a part that is skipped, as tests/functions does."""
    line = f"skipped: {part}, as {why}"
    print(line)
    if os.environ.get("TEST_SKIPS"):
        with open(os.environ["TEST_SKIPS"], "a", encoding="utf-8") as skips:
            print(line, file=skips)


def short(one, other):
    """What is in one, and not in the other, of two trees; anything else as it is."""
    if not isinstance(one, dict):
        return repr(one)[:600]
    return str({path: str(what)[:160] for path, what in one.items() if other.get(path) != what})[:900]
