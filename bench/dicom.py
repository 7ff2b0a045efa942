"""The bytes of DICOM files and of directories, for measurements."""
import struct

UNDEFINED = 0xFFFFFFFF
ITEM, ITEM_END, SEQUENCE_END = 0xE000, 0xE00D, 0xE0DD
# The value representations in use here whose headers have a length of four bytes.
LONG = {b"OB", b"OW", b"SQ", b"UC", b"UT"}
EXPLICIT, RLE = b"1.2.840.10008.1.2.1", b"1.2.840.10008.1.2.5"
DIRECTORY_CLASS, CT_CLASS = b"1.2.840.10008.1.3.10", b"1.2.840.10008.5.1.4.1.1.2"


def element(group, number, vr, value, length=None):
    """An element in Explicit VR, whose header may tell another length than its value has."""
    form = "<HH2sxxI" if vr in LONG else "<HH2sH"
    return struct.pack(form, group, number, vr, len(value) if length is None else length) + value


def text(group, number, vr, value):
    """An element with a text, which is padded."""
    padding = b"\0" if vr == b"UI" else b" "
    return element(group, number, vr, value + padding * (len(value) % 2))


def delimited(number, value, length=None):
    """An item, or a delimiter."""
    return struct.pack("<HHI", 0xFFFE, number, len(value) if length is None else length) + value


def number_of(value):
    """Four bytes."""
    return struct.pack("<I", value)


def head(sop_class, instance, transfer, more=b""):
    """What stands in front of a data set, with more elements in group 0002."""
    meta = b"".join([
        element(2, 0x0001, b"OB", b"\0\1"),
        text(2, 0x0002, b"UI", sop_class),
        text(2, 0x0003, b"UI", instance),
        text(2, 0x0010, b"UI", transfer),
        more,
    ])
    return b"".join([bytes(128), b"DICM", element(2, 0x0000, b"UL", number_of(len(meta))), meta])


def directory(items, first, last, length=None, tail=b""):
    """A directory with these items, the offsets of its first and last root, the length that its sequence tells, and
    more elements after it."""
    return b"".join([
        head(DIRECTORY_CLASS, b"2.25.0", EXPLICIT),
        element(4, 0x1130, b"CS", b""),
        element(4, 0x1200, b"UL", number_of(first)),
        element(4, 0x1202, b"UL", number_of(last)),
        element(4, 0x1212, b"US", b"\0\0"),
        element(4, 0x1220, b"SQ", items, length),
        tail,
    ])


def record(following, lower, more=b"", kind=b"PATIENT"):
    """A record that names the next one and the first one below it, with more elements after its own."""
    return delimited(ITEM, b"".join([
        element(4, 0x1400, b"UL", number_of(following)),
        element(4, 0x1410, b"US", b"\xff\xff"),
        element(4, 0x1420, b"UL", number_of(lower)),
        text(4, 0x1430, b"CS", kind),
        more,
    ]))


# Where the first record of a directory starts.
FIRST = len(directory(b"", 0, 0))
