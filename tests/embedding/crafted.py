"""Elements in Explicit VR Little Endian, and directories of them, byte by byte (PS3.5 section 7.1.2, PS3.3 annex F)."""
from cases import TOP

EXAMPLE = (TOP / "examples/ct1.DICOMDIR").read_bytes()
# Its bytes before the data set.
HEAD = EXAMPLE[:EXAMPLE.index(b"\x04\0\x30\x11CS")]


def element(tag, kind, value):
    """An element in Explicit VR Little Endian, whose length has two bytes."""
    value += b" " * (len(value) % 2)
    group, number, length = (part.to_bytes(2, "little") for part in (tag >> 16, tag & 0xFFFF, len(value)))
    return group + number + kind + length + value


def long_element(tag, kind, value):
    """An element whose length has four bytes."""
    header = element(tag, kind, b"")[:6] + bytes(2)
    value += b" " * (len(value) % 2)
    return header + len(value).to_bytes(4, "little") + value


def number(tag, value):
    return element(tag, b"UL", value.to_bytes(4, "little"))


def uid(tag, value):
    return element(tag, b"UI", value + b"\0" * (len(value) % 2))


def record(kind, *elements, used=True):
    """A record whose offsets are still 0: its type, whether it is in use, and its elements."""
    return kind, used, b"".join(elements)


def item(one, following, lower):
    kind, used, elements = one
    body = (number(0x00041400, following) + element(0x00041410, b"US", b"\xff\xff" if used else b"\0\0")
            + number(0x00041420, lower) + element(0x00041430, b"CS", kind) + elements)
    return b"\xfe\xff\0\xe0" + len(body).to_bytes(4, "little") + body


def directory(path, leaves, after=b""):
    """A directory of records, each below the one before it, and of leaves below the last one."""
    at, all_records, starts = len(HEAD) + 2 * 12 + 12, [*path, *leaves], []
    for one in all_records:
        starts.append(at)
        at += len(item(one, 0, 0))
    starts.append(0)
    items = [item(one, starts[place + 1] if place >= len(path) else 0, starts[place + 1] if place < len(path) else 0)
             for place, one in enumerate(all_records)]
    first, last = (starts[0], starts[0] if path else starts[len(leaves) - 1]) if all_records else (0, 0)
    return (HEAD + number(0x00041200, first) + number(0x00041202, last)
            + long_element(0x00041220, b"SQ", b"".join(items)) + after)
