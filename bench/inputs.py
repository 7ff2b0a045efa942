"""The inputs that cost the most memory or time beside their bytes: directories, and files of images."""
import hashlib
import itertools
import random
import struct

from dicom import (CT_CLASS, EXPLICIT, FIRST, ITEM, SEQUENCE_END, UNDEFINED, delimited, directory, element, head,
                   number_of, record, text)

CREATOR = b"DD FILESET 1"
IMPLICIT = b"1.2.840.10008.1.2"
# As long as a key may be.
LONG_KEY = b"k" * 1024


# Directories of any form.

def empty_items(count):
    """This number of items without elements."""
    return delimited(ITEM, b"") * count


def empty_elements(count, group=9):
    """This number of elements without a value, from this group on."""
    return b"".join(struct.pack("<HH2sH", group + number // 65536, number % 65536, b"CS", 0) for number in range(count))


def empty_sequences(count):
    """This number of sequences without items, from group 0009 on."""
    return b"".join(struct.pack("<HH2sxxI", 9 + number // 65536, number % 65536, b"SQ", 0) for number in range(count))


def nested_items(levels):
    """An item that holds a sequence of one item, and so on, down to this number of levels."""
    items = b""
    for _ in range(levels):
        items = delimited(ITEM, element(8, 0x1140, b"SQ", items))
    return items


def with_sequence(items):
    """A directory without records, and with these items in another sequence."""
    return directory(b"", 0, 0, tail=element(8, 0x1140, b"SQ", items))


def with_records(mores, order=None, kind=b"X"):
    """A directory with a record of each of these elements, all at the root, in this order."""
    sizes = [len(record(0, 0, more, kind)) for more in mores]
    places = list(itertools.accumulate(sizes, initial=FIRST))
    order = list(range(len(mores))) if order is None else order
    following = [0] * len(mores)
    for one, other in zip(order, order[1:]):
        following[one] = places[other]
    items = b"".join(record(after, 0, more, kind) for after, more in zip(following, mores))
    return directory(items, places[order[0]], places[order[-1]])


def shuffled(count):
    """The numbers below this one in a random order, which is the same each time."""
    order = list(range(count))
    random.Random(1).shuffle(order)
    return order


def chains(count, levels):
    """A directory with this number of records, each below the one before it, down to this number of levels."""
    size = len(record(0, 0))
    roots = range(0, count - count % levels, levels)
    items = []
    for root in roots:
        after = FIRST + (root + levels) * size if root != roots[-1] else 0
        items.append(record(after, FIRST + (root + 1) * size))
        items.extend(record(0, FIRST + (root + level + 1) * size) for level in range(1, levels - 1))
        items.append(record(0, 0))
    return directory(b"".join(items), FIRST, FIRST + roots[-1] * size)


def names(files):
    """A directory with a record for each of these File IDs."""
    return with_records([text(4, 0x1500, b"CS", file) for file in files])


# Directories as the program writes them.

def patient(key=b"", number=0):
    """The keys of a PATIENT record."""
    return (0, b"PATIENT", text(8, 0x0005, b"CS", key) + text(0x10, 0x0010, b"PN", key)
            + text(0x10, 0x0020, b"LO", key or b"%d" % number))


def study(key=b"", number=0, before=b""):
    """The keys of a STUDY record, with more elements before them."""
    return (1, b"STUDY", b"".join([
        before, text(8, 0x0005, b"CS", key), text(8, 0x0020, b"DA", key or b"19000101"),
        text(8, 0x0030, b"TM", key or b"000000"), text(8, 0x0050, b"SH", key), text(8, 0x1030, b"LO", key),
        text(0x20, 0x000D, b"UI", b"2.%d" % number), text(0x20, 0x0010, b"SH", key or b"0"),
    ]))


def series(key=b"", number=0):
    """The keys of a SERIES record."""
    return (2, b"SERIES", text(8, 0x0060, b"CS", key or b"OT") + text(0x20, 0x000E, b"UI", b"3.%d" % number)
            + text(0x20, 0x0011, b"IS", key or b"0"))


def listed_image(number, key=b"0"):
    """The elements of the smallest IMAGE record, with this Instance Number, of a file that is called A."""
    return (3, b"IMAGE", b"".join([
        text(4, 0x1500, b"CS", b"A"), text(4, 0x1510, b"UI", CT_CLASS), text(4, 0x1511, b"UI", b"1.%d" % number),
        text(4, 0x1512, b"UI", IMPLICIT), text(9, 0x0010, b"LO", CREATOR),
        element(9, 0x1001, b"OB", hashlib.sha256(number_of(number)).digest()), text(0x20, 0x0013, b"IS", key),
    ]))


def own(rows, tail=b""):
    """A directory with these records, each with its level, in the order of the tree."""
    places = list(itertools.accumulate((len(record(0, 0, more, kind)) for _, kind, more in rows), initial=FIRST))
    # Of each level the offset of the first record after it, with none of a higher level between.
    after, items = [0] * 5, []
    for (level, kind, more), at in zip(reversed(rows), reversed(places[:-1])):
        items.append(record(after[level], after[level + 1], more, kind))
        after[level:] = [at] + [0] * (4 - level)
    roots = [at for (level, _, _), at in zip(rows, places) if level == 0] or [0]
    return directory(b"".join(reversed(items)), roots[0], roots[-1], tail=tail)


def one_series(count, above=None, key=b"0"):
    """A directory of this number of images of one series, below these three records."""
    above = [patient(), study(), series()] if above is None else above
    return own([*above, *(listed_image(number, key) for number in range(count))])


def long_keys(count):
    """A directory of this number of images of one series, below keys of 1,024 bytes."""
    return one_series(count, [patient(LONG_KEY), study(LONG_KEY), series(LONG_KEY)])


def each_of_its_own(count):
    """A directory of this number of images, each of its own patient."""
    rows = ((patient(number=number), study(number=number), series(number=number), listed_image(number))
            for number in range(count))
    return own(list(itertools.chain.from_iterable(rows)))


def below_elements(size):
    """A directory of this size. Half of it is elements in front of the keys of a STUDY record, of which there is
    room for 1,572,864 bytes, and half is images below that record."""
    return one_series(size // 2 // 214, [patient(), study(before=empty_elements(size // 16, 5)), series()])


def below_padding(size):
    """A directory of this size. Half of it is padding, in the place of the character set of a PATIENT record, and half
    is images below that record."""
    level, kind, keys = patient()
    padded = element(8, 0x0005, b"UT", b" " * (size // 2)) + keys[len(element(8, 0x0005, b"CS", b"")):]
    return one_series(size // 2 // 214, [(level, kind, padded), study(), series()])


def parts_of_uids(length):
    """All texts of this length that are UIDs."""
    for first in range(1, length + 1):
        numbers = range(10 ** (first - 1) if first > 1 else 0, 10 ** first)
        if first == length:
            yield from (b"%d" % number for number in numbers)
        elif first + 1 < length:
            rest = list(parts_of_uids(length - first - 1))
            yield from (b"%d.%s" % (number, more) for number in numbers for more in rest)


def short_uids(count):
    """This number of UIDs, of as few characters as there are, in their order."""
    all_uids = itertools.chain.from_iterable(parts_of_uids(length) for length in itertools.count(1))
    return sorted(itertools.islice(all_uids, count))


def withdrawing(value):
    """A directory without records, with this value in the place of its withdrawn UIDs."""
    return directory(b"", 0, 0, tail=text(9, 0x0010, b"LO", CREATOR) + text(9, 0x1002, b"UC", value))


# Files of images.

def image(number=0, transfer=EXPLICIT, group=b"", before=b"", tail=b"", key=b""):
    """The smallest image, with more elements in group 0002, before the elements of the patient, and after all."""
    uid = b"1.%d" % number
    return b"".join([
        head(CT_CLASS, uid, transfer, group),
        text(8, 0x0005, b"CS", key), text(8, 0x0016, b"UI", CT_CLASS), text(8, 0x0018, b"UI", uid),
        text(8, 0x0020, b"DA", key), text(8, 0x0030, b"TM", key), text(8, 0x0050, b"SH", key),
        text(8, 0x0060, b"CS", key), text(8, 0x1030, b"LO", key), before,
        text(0x10, 0x0010, b"PN", key), text(0x10, 0x0020, b"LO", key),
        text(0x20, 0x000D, b"UI", b"2.0"), text(0x20, 0x000E, b"UI", b"3.0"), text(0x20, 0x0010, b"SH", key),
        text(0x20, 0x0011, b"IS", key), text(0x20, 0x0013, b"IS", key), tail,
    ])


def group_of_elements():
    """Elements that fill group 0002."""
    return b"".join(struct.pack("<HH2sH", 2, number, b"CS", 0) for number in range(0x0100, 0x0100 + 8170))


def group_of_items():
    """A sequence of nested items that fills group 0002."""
    items = nested_items(31)
    return element(2, 0x0100, b"SQ", items * (65_300 // len(items)))


def fragments(count):
    """Pixel data in this number of fragments without bytes."""
    return element(0x7FE0, 0x0010, b"OB", b"", UNDEFINED) + empty_items(count) + delimited(SEQUENCE_END, b"")


def pixels(size):
    """Pixel data of this number of bytes."""
    return element(0x7FE0, 0x0010, b"OW", bytes(size))
