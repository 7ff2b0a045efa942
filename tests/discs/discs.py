#!/usr/bin/python3
"""Makes what discs are tried with.

    discs.py number FILE COUNT OUT      makes COUNT images of one series, of one whose UID has nine characters
    discs.py show SET FORM all|files    gives a folder the names that a system shows: FORM is how it shows N
    discs.py digest                     prints the File ID of each record that 'list --long --json' printed, and the
                                        SHA-256 of the file at its path
"""
import hashlib
import json
import pathlib
import sys

# The header of (0020,0013), the last element of the image, up to its VR, and of a UID of nine characters.
NUMBER = b"\x20\x00\x13\x00IS"
INSTANCE = b"\x08\x00\x18\x00UI\x0a\x00"
# The UIDs have as many characters as the UID of the image, and no number in them begins with a 0.
FIRST = 1000


def number(file, count, out):
    """Writes copies of an image that differ in their SOP Instance UID and Instance Number alone."""
    data = pathlib.Path(file).read_bytes()
    start = data.index(INSTANCE) + len(INSTANCE)
    uid = data[start:start + 10]
    # The UID stands in group 0002 and in the data set.
    if data.count(uid) != 2 or len(data) - data.rindex(NUMBER) != 10:
        sys.exit(f"tests/discs/discs.py: {file} is no image of the form that is wanted here")
    pathlib.Path(out).mkdir()
    for place in range(FIRST, FIRST + int(count)):
        new = data.replace(uid, b"1.2.3.%4d" % place)
        new = new[:-4] + b"\x04\x00%4d" % place
        pathlib.Path(out, str(place)).write_bytes(new)


def show(folder, form, which):
    """Renames the files and folders below a folder as a system shows them. Unless all are meant, a folder gets the
    letters alone: on a disc it has no version."""
    for path in sorted(pathlib.Path(folder).rglob("*"), reverse=True):
        name = path.name.lower() if form.startswith("n") else path.name
        path.rename(path.with_name(name + (form[1:] if which == "all" or path.is_file() else "")))


def digest():
    """Opens the path of each record that has a file."""
    for line in map(json.loads, sys.stdin):
        if "file" in line:
            path = line["path"]
            print(line["file"], path and hashlib.sha256(pathlib.Path(path).read_bytes()).hexdigest())


if __name__ == "__main__":
    {"number": number, "show": show, "digest": digest}[sys.argv[1]](*sys.argv[2:])
