"""Damaged images and directories, given to the library and to the program, which must make or refuse the same.

    making.py MADE ROOM CASES
"""
import shutil
import sys
from pathlib import Path

import dicomdir
from cases import EXAMPLES, Tally, damaged, directories, fault_of, packaged_images, run
from dicomdir import _bytes

made, room, cases = Path(sys.argv[1]), Path(sys.argv[2]), int(sys.argv[3])
# The program also prints UIDs, which have no room in an answer.
LONGER = ("31 File 25 OtherSyntax", "32 NotImage", "41 Conflict", "42 TooMany")


def is_fault(fault, said):
    """Does a fault of the library say what the program says?"""
    return str(fault) == said or str(fault).startswith(LONGER) and said.startswith(str(fault))


def index_one(tally, images):
    """One image whose head is damaged, by `index` and by `of_image`."""
    data = tally.chance.choice(images)
    data = damaged(tally.chance, data[:1500], 128) + data[1500:]
    source, out = room / "source.dcm", room / "out"
    source.write_bytes(data)
    _, output, errors = run("index", out, source)
    try:
        directory = dicomdir.of_image(data)
        same = "SKIP" not in output and (out / "DICOMDIR").read_bytes() == directory
        tally.note("index 0", same, output, errors)
    except dicomdir.Fault as fault:
        said = fault_of(output.split("SKIP ", 1)[-1].split("\n", 1)[0])
        tally.note(f"index {fault.status}", is_fault(fault, said), said, str(fault))
    shutil.rmtree(out)


def merge_some(tally, seeds):
    """One to three directories, some damaged, by `merge --dry-run` and by `merge`."""
    chance = tally.chance
    chosen = chance.sample(seeds, chance.randrange(1, 4))
    some = [damaged(chance, one) if chance.random() < .4 else one for one in chosen]
    folders = []
    for number, data in enumerate(some):
        folders.append(room / f"set{number}")
        folders[-1].mkdir(exist_ok=True)
        (folders[-1] / "DICOMDIR").write_bytes(data)
    _, output, errors = run("merge", "--dry-run", room / "out", *folders)
    try:
        directory, picks = _bytes.merge(some)
        plan = [line for line in output.splitlines() if line.startswith("PLAN ")]
        wanted = f"PLAN {len(picks)} instances, {len(directory)} bytes"
        tally.note("merge 0", bool(plan) and plan[0].startswith(wanted), output, errors, wanted)
    except dicomdir.Fault as fault:
        line = errors.strip().rsplit("\n", 1)[-1]
        of_one = 51 <= fault.status <= 65
        same = (is_fault(fault, fault_of(line)) or "OtherSyntax" in line and str(fault) in line) \
            and (not of_one or line.startswith(f"FAULT {folders[fault.source]}"))
        tally.note(f"merge {fault.status}", same, line, str(fault), fault.source)


def main():
    tally = Tally("making", 2)
    images = [path.read_bytes() for path in [*EXAMPLES, *packaged_images()[::4]]]
    seeds = directories(made)
    for number in range(cases):
        if number % 2:
            index_one(tally, images)
        else:
            merge_some(tally, seeds)
    tally.end(8)


main()
