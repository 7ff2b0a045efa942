"""The room that dicomdir.h says suffices always: here are directories and an image of which each function answers as
much as it can, for the bytes that they have. The package gives no other room, and asks no function twice.
"""
import sys
from hashlib import sha256

import dicomdir
from cases import EXAMPLES
from crafted import EXAMPLE, directory, element, long_element, record, uid
from dicomdir import _bytes

CT, IMPLICIT = b"1.2.840.10008.5.1.4.1.1.2", b"1.2.840.10008.1.2"
CREATOR = element(0x00090010, b"LO", b"DD FILESET 1")
LONG_ID = b"\\".join([b"A" * 8] * 8)


def withdrawing(value):
    return directory([], [], CREATOR + long_element(0x00091002, b"UC", value))


def image(place, file, instance=b""):
    digest = long_element(0x00091001, b"OB", sha256(b"%d" % place).digest())
    return record(b"IMAGE", element(0x00041500, b"CS", file), uid(0x00041510, CT),
                  uid(0x00041511, instance or b"1.%d" % place), uid(0x00041512, IMPLICIT), CREATOR, digest,
                  element(0x00200013, b"IS", b"1"))


def own(images, name=b""):
    """A directory that a merge takes, with as few bytes as that is possible."""
    given = element(0x00100010, b"PN", name) if name else b""
    path = [record(b"PATIENT", given, element(0x00100020, b"LO", b"P")),
            record(b"STUDY", element(0x00080020, b"DA", b"1"), element(0x00080030, b"TM", b"1"), uid(0x0020000D, b"1"),
                   element(0x00200010, b"SH", b"1")),
            record(b"SERIES", element(0x00080060, b"CS", b"X"), uid(0x0020000E, b"1"),
                   element(0x00200011, b"IS", b"1"))]
    return directory(path, images)


def full_image():
    """An image whose keys have as many bytes as they may."""
    data = EXAMPLES[0].read_bytes()
    at, most = data.index(b"\x08\0\x16\0UI"), b"1" * 1024
    keys = [(0x00080020, b"DA"), (0x00080030, b"TM"), (0x00080050, b"SH"), (0x00080060, b"CS"), (0x00081030, b"LO"),
            (0x00100010, b"PN"), (0x00100020, b"LO"), (0x0020000D, b"UI"), (0x0020000E, b"UI"), (0x00200010, b"SH"),
            (0x00200011, b"IS"), (0x00200013, b"IS")]
    uids = data[at:data.index(b"\x08\0\x20\0DA")]
    return data[:at] + element(0x00080005, b"CS", most) + uids + b"".join(
        uid(tag, b"1." + b"2" * 62) if kind == b"UI" else element(tag, kind, most) for tag, kind in keys)


def table_of(data):
    found = _bytes.table(data, [0x00041430, 0x00081030])
    return len(found.rows) // 4, len(found.text)


def left_out(count, file):
    """As many images of one instance: the one that is kept has a long File ID."""
    return own([image(place, file if place else LONG_ID, b"1.1") for place in range(count)])


def sizes():
    """What each answer has, and about as much as it may have by the bytes that are given."""
    small = directory([], [record(b"A")] * 2000)
    yield "rows", table_of(small)[0], len(small) / 52
    large = directory([], [record(b"A", element(0x00081030, b"LO", b"x" * 60000))] * 5)
    yield "values", table_of(large)[1], len(large)
    deep = directory([record(b"AB", used=False)] * 31, [record(b"AB", used=False)] * 2000)
    yield "list", len(dicomdir.listing(deep)), 1.68 * len(deep)
    many = withdrawing(b"\\" * 40000)
    yield "list of withdrawn", len(dicomdir.listing(many)), 12 * len(many)
    yield "front", len(_bytes.front(many).withdrawn) - 1, len(many)
    yield "of_image", len(dicomdir.of_image(full_image())), 16384 / 1.2
    short = own([image(place, b"A") for place in range(500)])
    made = _bytes.merge([short])
    yield "merge", len(made.directory), 1.2 * len(short) + 1024
    uids = ["1.2.%d" % place for place in range(2000)]
    yield ("withdrawal", len(_bytes.withdraw(EXAMPLE, uids).directory),
           1.2 * len(EXAMPLE) + sum(map(len, uids)) + len(uids) + 1024)
    yield "images", len(made.picks), len(short) / 200
    long = own([image(place, LONG_ID) for place in range(500)])
    yield "File IDs", sum(len(file) for _, file in _bytes.merge([long]).picks), len(long) / 3.5
    again = left_out(500, b"A")
    found = _bytes.notes([again]).left_out
    yield "notes", len(found), len(again) / 200
    yield "their texts", 3 * len(found), len(again) / 67
    again = left_out(500, LONG_ID)
    texts = [file[1] + kept[1] + instance for file, kept, instance in _bytes.notes([again]).left_out]
    yield "their bytes", sum(map(len, texts)), .55 * len(again)
    named = [own([image(place, b"A")], b"N%d" % place + b"x" * 1000) for place in range(50)]
    names = _bytes.notes(named).names["P"]
    yield "names", sum(map(len, names)), sum(map(len, named)) * .6


def main():
    nearly = 0
    for what, found, most in sizes():
        if not .85 * most < found <= most:
            sys.exit(f"rooms: {what}: {found} of {most:.0f}, so that the case or the room is another than was meant")
        nearly += 1
    print(f"rooms: {nearly} answers nearly fill what suffices always")


main()
