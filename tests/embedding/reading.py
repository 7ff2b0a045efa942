"""Damaged directories, read by the library and by the program, which must say the same of each.

    reading.py MADE ROOM CASES

MADE has file-sets, and ROOM is an empty folder. For each case the text of `dicomdir list` is compared with `listing`,
and once more with what the rows say. The front is compared with `list --long` and the last line.
"""
import sys
from pathlib import Path

import dicomdir
from cases import Tally, damaged, directories, fault_of, run
from dicomdir import _bytes

made, room, cases = Path(sys.argv[1]), Path(sys.argv[2]), int(sys.argv[3])
IDENTIFIERS = {"PATIENT": "PatientID", "STUDY": "StudyInstanceUID", "SERIES": "SeriesInstanceUID"}


def asked(function, data):
    """What the library answers, or its fault."""
    try:
        return function(data)
    except dicomdir.Fault as fault:
        return fault


def shown(text):
    return "".join(letter if " " <= letter <= "~" else "?" for letter in text)


def lines_of(disc):
    """The lines of `list` from the rows."""
    lines = []
    for one in disc.records:
        value = one.raw(IDENTIFIERS.get(one.record_type, "ReferencedFileID")).decode("latin-1") or "-"
        kinds = ("", "PATIENT", "STUDY", "SERIES", "IMAGE")
        if disc._rows[4 * one.row + 2] != (kinds.index(one.record_type) if one.record_type in kinds[1:] else 0):
            lines.append("another kind")
        line = shown(f"{one.offset} {one.record_type} {value}")
        lines.append("  " * one.level + line + ("" if one.in_use else " inactive"))
    return lines


def agrees(data, wanted, errors):
    """What was met, and whether the library answers what the program does."""
    answers = [asked(function, data) for function in (dicomdir.listing, dicomdir.FileSet, _bytes.front)]
    if errors:
        said = fault_of(errors)
        # The UID that the program names has no room in an answer.
        said = said[:said.index("OtherSyntax") + 11] if "OtherSyntax" in said else said
        return " ".join(said.split()[:1]), all(isinstance(one, dicomdir.Fault) and str(one) == said for one in answers)
    if any(isinstance(one, dicomdir.Fault) for one in answers):
        return "0", False
    text, disc, front = answers
    lines = wanted.splitlines()
    count = f"{len(disc.records)} records, {front.unreached} unreached"
    withdrawn = [shown(f"WITHDRAWN {uid}") for uid in front.withdrawn]
    return "0", text == wanted and lines_of(disc) + withdrawn + [count] == lines


def front_agrees(folder, data):
    """The front beside the first line of `list --long`."""
    status, output, _ = run("list", "--long", folder)
    front = asked(_bytes.front, data)
    return status != 0 or (shown(front.set_id) in output and front.uid in output)


def main():
    tally = Tally("reading", 1)
    seeds = directories(made)
    for number in range(cases):
        whole = number < len(seeds)
        data = seeds[number] if whole else damaged(tally.chance, tally.chance.choice(seeds))
        (room / "DICOMDIR").write_bytes(data)
        _, output, errors = run("list", room)
        met, same = agrees(data, output, errors)
        tally.note(met, same and (not whole or front_agrees(room, data)), number, output, errors)
        if not same:
            (room / f"differs{number}").write_bytes(data)
    tally.end(6)


main()
