"""Changes in the list of a pile, each with a new digest, and in its copies: publish must see each of them. For staged."""
import hashlib
import struct
import subprocess

from beside import CT, element

LONG = (b"OB", b"SQ", b"UV")
MR = CT[:-1] + "4"
DIGEST = element(9, 0x100B, "OB", bytes(32))[:-32]

# Each key of a source in the list by its tag and name: what the file says, and another value of the same length.
KEYS = [
    (0x00041510, "class", CT, MR),
    (0x00041511, "instance", "1.2.3.4", "1.2.3.5"),
    (0x00041512, "transfer syntax", "1.2.840.10008.1.2.1", "1.2.840.10008.1.2.5"),
    (0x00080005, "character set", "ISO_IR 100", "ISO_IR 101"),
    (0x00080020, "study date", "20240115", "20240116"),
    (0x00080030, "study time", "101500", "101501"),
    (0x00080050, "accession number", "A1", "A2"),
    (0x00080060, "modality", "CT", "MR"),
    (0x00081030, "study description", "HEAD", "FOOT"),
    (0x00091001, "digest", None, None),
    (0x00091007, "character set of the patient", "ISO_IR 100", "ISO_IR 101"),
    (0x00100010, "patient's name", "DOE^JOHN", "ROE^JANE"),
    (0x00100020, "patient ID", "P1", "P2"),
    (0x0020000D, "study UID", "1.2.5", "1.2.6"),
    (0x0020000E, "series UID", "1.2.5.1", "1.2.5.2"),
    (0x00200010, "study ID", "S1", "S2"),
    (0x00200011, "series number", "11", "12"),
    (0x00200013, "instance number", "21", "22"),
]


def image(instance="1.2.3.4", name="DOE^JOHN", more="21"):
    """The bytes of an image that says each of the keys."""
    meta = element(2, 1, "OB", b"\0\1") + element(2, 2, "UI", CT) + element(2, 3, "UI", instance)
    meta += element(2, 16, "UI", "1.2.840.10008.1.2.1")
    data = [(8, 5, "CS", "ISO_IR 100"), (8, 0x16, "UI", CT), (8, 0x18, "UI", instance), (8, 0x20, "DA", "20240115"),
            (8, 0x30, "TM", "101500"), (8, 0x50, "SH", "A1"), (8, 0x60, "CS", "CT"), (8, 0x1030, "LO", "HEAD"),
            (0x10, 0x10, "PN", name), (0x10, 0x20, "LO", "P1"), (0x20, 0xD, "UI", "1.2.5"),
            (0x20, 0xE, "UI", "1.2.5.1"), (0x20, 0x10, "SH", "S1"), (0x20, 0x11, "IS", "11"), (0x20, 0x13, "IS", more)]
    head = bytes(128) + b"DICM" + element(2, 0, "UL", struct.pack("<I", len(meta))) + meta
    return head + b"".join(element(*one) for one in data)


def values(listed):
    """Where the values of the first item stand in a list, by their tags: start and end."""
    found, at, end = {}, 0, len(listed)
    while at < end:
        group, number = struct.unpack_from("<HH", listed, at)
        if group == 0xFFFE:
            # The item, whose elements are looked at alone.
            end, at = at + 8 + struct.unpack_from("<I", listed, at + 4)[0], at + 8
            continue
        is_long = listed[at + 4:at + 6] in LONG
        size = struct.unpack_from("<I" if is_long else "<H", listed, at + (8 if is_long else 6))[0]
        at += 12 if is_long else 8
        if size == 0xFFFFFFFF:
            continue
        found[group << 16 | number] = (at, at + size)
        at += size
    return found


def digested(listed):
    """The list with the digest of what stands before it."""
    front = listed[:-len(DIGEST) - 32]
    # A list of before had none.
    return front + DIGEST + hashlib.sha256(front).digest() if listed.startswith(DIGEST, len(front)) else listed


def with_value(listed, tag, value):
    """The list with another value of the first item, and its digest made anew."""
    start, end = values(listed)[tag]
    assert len(value) == end - start, hex(tag)
    return digested(listed[:start] + value + listed[end:])


def padded(tag, text):
    """A value of even length: a UID gets a zero byte, a text a blank."""
    is_uid = tag in (0x00041510, 0x00041511, 0x00041512, 0x0020000D, 0x0020000E)
    return text.encode() + (b"\0" if is_uid else b" ") * (len(text) % 2)


def changes(listed, copy, other):
    """What is changed, and the list and the first copy then."""
    for tag, name, said, changed in KEYS:
        start, end = values(listed)[tag]
        if said is None:
            yield name, with_value(listed, tag, hashlib.sha256(other).digest()), copy
            continue
        assert listed[start:end] == padded(tag, said), name
        yield name, with_value(listed, tag, padded(tag, changed)), copy
    yield "bytes", listed, other
    yield "bytes and digest", with_value(listed, 0x00091001, hashlib.sha256(other).digest()), other


def try_changes(program, work):
    """What publish did not see of these, each with one source, and with a second one of the same keys."""
    unseen = []
    names = [work / "one", work / "two"]
    for path, data in zip(names, [image(), image("1.2.3.9", more="22")]):
        path.write_bytes(data)
    for many in [1, 2]:
        pile = work / f"pile{many}"
        subprocess.run([program, "stage", pile, *names[:many]], check=True, capture_output=True)
        list_at, copy_at = pile / "STAGED", pile / "000/000001"
        listed, copy = list_at.read_bytes(), copy_at.read_bytes()
        for what, list_now, copy_now in changes(listed, copy, image(name="ROE^JANE")):
            list_at.write_bytes(list_now)
            copy_at.write_bytes(copy_now)
            done = subprocess.run([program, "publish", work / f"{many} {what}", pile], capture_output=True, check=False)
            # Two sources may conflict then.
            wanted = [f"FAULT {copy_at}: 97 Changed\n".encode(), b"FAULT -: 41 "]
            if done.returncode != 1 or not done.stderr.startswith(tuple(wanted[:many])):
                unseen.append(f"{what} of {many} sources: {done.returncode} {done.stdout} {done.stderr}")
        list_at.write_bytes(listed)
        copy_at.write_bytes(copy)
        done = subprocess.run([program, "publish", work / f"{many} whole", pile], capture_output=True, check=False)
        if done.returncode:
            unseen.append(f"{many} sources that are unchanged: {done.stderr}")
    return unseen
