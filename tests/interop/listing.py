#!/usr/bin/python3
"""Tells what the program must list of a directory, from what dcmdump has printed of it (dcmdump +L -Un).

    listing.py list DUMP     prints the records as the offsets lead to them, or that the last root is another
    listing.py long DUMP     prints the same, with what names the file-set and what a person knows each record by
    listing.py last DUMP     prints the offset of the last root that is reached
"""
import re
import sys

# What labels a record of each type.
LABELS = {"PATIENT": "0010,0020", "STUDY": "0020,000d", "SERIES": "0020,000e"}
FILE_ID = "0004,1500"
# What a person knows a record of each type by.
KNOWN_BY = {
    "PATIENT": ["0010,0010"],
    "STUDY": ["0008,0020", "0008,0030", "0008,1030"],
    "SERIES": ["0008,0060", "0020,0011"],
    "IMAGE": ["0020,0013", "0004,1511"],
}
SET_ID, SET_UID = "0004,1130", "0002,0003"
NEXT, IN_USE, LOWER, TYPE = "0004,1400", "0004,1410", "0004,1420", "0004,1430"
FIRST_ROOT, LAST_ROOT = "0004,1200", "0004,1202"


def lines_of(path):
    """The lines of a file, each byte as one character."""
    with open(path, encoding="latin-1", newline="\n") as file:
        return file.read().split("\n")


def value_of(vr, text):
    """The value of a dumped element as text, without padding. Items and what is empty have none."""
    if text.startswith("("):
        return ""
    if text.startswith("["):
        return text[1:-1].rstrip(" \0")
    if vr in ("OB", "UN"):
        return "".join(chr(int(byte, 16)) for byte in text.split("\\")).rstrip(" \0")
    return text


def dumped(path):
    """The elements ahead of the records, and by their offsets the elements of the records that dcmdump has printed."""
    ahead, records, record = {}, {}, None
    for line in lines_of(path):
        place = re.match(r"  #  offset=\$(\d+)", line)
        element = re.match(r"( {4})?\((\w{4},\w{4})\) (\w\w) (.*\S) +# +[^ #]+, *\d+ [^#]*$", line)
        if place:
            record = records.setdefault(int(place[1]), {})
        elif element:
            holder = record if element[1] else ahead
            holder[element[2]] = value_of(element[3], element[4])
    return ahead, records


def walk(records, offset, level=0):
    """The records as the offsets lead to them: a record, those below it, and the next one."""
    while offset != 0:
        record = records[offset]
        yield level, offset, record
        yield from walk(records, int(record[LOWER]), level + 1)
        offset = int(record[NEXT])


def shown(text):
    """A text as it is printed."""
    return re.sub(r"[^ -~]", "?", text)


def line_of(level, offset, record):
    """The line of a record."""
    label = record.get(LABELS.get(record[TYPE], FILE_ID)) or "-"
    inactive = "" if record[IN_USE] == "65535" else " inactive"
    return "  " * level + f"{offset} {shown(f'{record[TYPE]} {label}')}{inactive}"


def long_line_of(level, offset, record):
    """The line of a record in the long list."""
    values = [shown(record.get(tag) or "-") for tag in KNOWN_BY.get(record[TYPE], [])]
    return " | ".join([line_of(level, offset, record)] + values)


def last_root(reached):
    """The offset of the last root that was reached, or 0."""
    roots = [offset for level, offset, _ in reached if level == 0]
    return roots[-1] if roots else 0


def show(dump, long=False):
    """Prints the lines of all records and how many there are, or that the directory names another last root."""
    ahead, records = dumped(dump)
    reached = list(walk(records, int(ahead[FIRST_ROOT])))
    if last_root(reached) != int(ahead[LAST_ROOT]):
        print("56 LastRoot")
        return
    if long:
        print("FILE-SET", shown(ahead.get(SET_ID) or "-"), shown(ahead.get(SET_UID) or "-"))
    for place in reached:
        print((long_line_of if long else line_of)(*place))
    print(f"{len(reached)} records, {len(records) - len(reached)} unreached")


def last(dump):
    """Prints the offset of the last root that is reached."""
    ahead, records = dumped(dump)
    print(last_root(walk(records, int(ahead[FIRST_ROOT]))))


if __name__ == "__main__":
    {"list": show, "long": lambda dump: show(dump, long=True), "last": last}[sys.argv[1]](sys.argv[2])
