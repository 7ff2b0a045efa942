"""What the tests share: the program, files to begin with, and how they are damaged."""
import io
import os
import random
import shutil
import subprocess
import sys
from pathlib import Path

from dicomdir import _bytes

PROGRAM = os.environ["DICOMDIR_PROGRAM"]
# Debian's python3-pydicom brings them.
PACKAGED = Path("/usr/lib/python3/dist-packages/pydicom/data/test_files")
TOP = Path(__file__).resolve().parent.parent.parent
EXAMPLES = sorted((TOP / "examples").glob("*.dcm"))
# A damaged length field, an item that begins, no length, and spaces.
WORDS = (b"\xff\xff\xff\xff", b"\0\0\0\0", b"\xfe\xff\0\xe0", b"    ")
# The elements of a directory that name offsets: the first and the last root, the next record, the first one below.
OFFSETS = (b"\4\0\0\x12UL\4\0", b"\4\0\2\x12UL\4\0", b"\4\0\0\x14UL\4\0", b"\4\0\x20\x14UL\4\0")


def run(*words):
    """Runs the program: its status, and both outputs as text."""
    ran = subprocess.run([PROGRAM, *map(str, words)], capture_output=True, check=False, timeout=60)
    return (ran.returncode, *(said.decode("ascii", "backslashreplace") for said in (ran.stdout, ran.stderr)))


def fault_of(errors):
    """The words of a fault, after FAULT and its path, in the last line."""
    return errors.rstrip("\n").rsplit("\n", 1)[-1].split(": ", 1)[-1]


def head_of(data):
    """The file without its Pixel Data, as pydicom writes it."""
    from pydicom import dcmread
    head = io.BytesIO()
    dcmread(io.BytesIO(data), stop_before_pixels=True).save_as(head)
    return head.getvalue()


def packaged_images():
    """Images of one file-set of three producers, which the program takes."""
    return sorted(path for path in (PACKAGED / "dicomdirtests").glob("[79]*/*/*") if path.is_file())


def copy_shown(folder, shown, form):
    """Copies a file-set under the names of one form, from 0 to 7, that systems show of a disc."""
    shutil.copytree(folder, shown)
    for path in sorted(shown.rglob("*"), reverse=True):
        path.rename(path.with_name(_bytes.spellings(path.name)[form]))


def directories(made):
    """DICOMDIRs of several producers: the example, all of the folder, and pydicom's, some out of form."""
    found = [TOP / "examples/ct1.DICOMDIR", *sorted(made.glob("*/DICOMDIR"))]
    found += sorted(path for path in (PACKAGED / "dicomdirtests").glob("DICOMDIR*"))
    return [path.read_bytes() for path in found]


def damaged(chance, data, least=0):
    """The bytes cut, or changed at a few places from `least` on."""
    data, how = bytearray(data), chance.randrange(9)
    if how == 0:
        return bytes(data[:chance.randrange(len(data) + 1)])
    if how > 5 and any(name in data for name in OFFSETS):
        return with_other_offsets(chance, data)
    for _ in range(chance.choice((1, 1, 1, 2, 3, 8))):
        at = chance.randrange(min(least, len(data) - 1), len(data))
        if how == 1:
            data[at] = chance.randrange(256)
        elif how == 2:
            data[at] ^= 1 << chance.randrange(8)
        elif how == 3:
            data[at:at + 4] = chance.choice((*WORDS, chance.randrange(len(data)).to_bytes(4, "little")))
        elif how == 4:
            del data[at:at + chance.randrange(1, 9)]
        else:
            data[at:at] = bytes(chance.randrange(256) for _ in range(chance.randrange(1, 9)))
    return bytes(data)


def with_other_offsets(chance, data):
    """A directory in which one or two records lead to where others lead, to nothing, or to anywhere."""
    places = [at + 8 for name in OFFSETS for at in range(len(data)) if data.startswith(name, at)]
    for _ in range(chance.choice((1, 1, 2))):
        at, other = chance.choice(places), chance.choice(places)
        anywhere = chance.randrange(len(data)).to_bytes(4, "little")
        data[at:at + 4] = chance.choice((data[other:other + 4], bytes(4), anywhere))
    return bytes(data)


class Tally:
    """Counts what was met, and keeps what differs."""

    def __init__(self, what, seed):
        self.what, self.chance, self.met, self.differ, self.cases = what, random.Random(seed), {}, 0, 0

    def note(self, met, same, *shown):
        """One case: what was met, and whether both gave the same."""
        self.cases += 1
        self.met[met] = self.met.get(met, 0) + 1
        if not same:
            self.differ += 1
            if self.differ < 6:
                print(f"{self.what}: differs:", *(repr(it)[:300] for it in shown), file=sys.stderr)

    def end(self, least):
        """Prints the numbers, and ends with 1 where something differs or less was met than it should."""
        print(f"{self.what}: {self.cases} cases, {self.differ} differ, met: "
              + ", ".join(f"{met} {number}" for met, number in sorted(self.met.items())))
        if self.differ or len(self.met) < least:
            sys.exit(1)
