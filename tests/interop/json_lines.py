#!/usr/bin/python3
"""Reads what the program prints with --json.

    json_lines.py words FILE             holds each line against docs/json-schema.json, and prints its words
    json_lines.py paths FILE PATH..      compares the paths that lines name, in their order, with these
    json_lines.py elements FILE SET      compares the elements of each record with what pydicom reads of the DICOMDIR,
                                         and its path with the file that is there
    json_lines.py samples FILE           tries the schema by the lines of a file, and these with changed members

The words of a line are those that the program prints of the same without --json. The status is 1 where something is not
as wanted.
"""
import base64
import json
import pathlib
import re
import sys
import warnings

SCHEMA = pathlib.Path(__file__).resolve().parents[2] / "docs/json-schema.json"
CONTROL = re.compile("[\0-\x1f\x7f-\x9f]")
# Up to eight names with up to eight characters (PS3.10 section 8.2).
FILE_ID = re.compile(r"[A-Z0-9_]{1,8}(\\[A-Z0-9_]{1,8}){0,7}")
# Members that an object may lack.
OPTIONAL = {("RECORD", "file"), ("RECORD", "uid"), ("PLAN", "image_bytes"), ("FAULT", "cause"), ("FAULT", "help")}
# What the value representations have whose texts may be other than ASCII, or have lines.
BY_CHARACTER_SET = ("LO", "LT", "PN", "SH", "ST", "UC", "UT")
WITH_LINES = ("LT", "ST", "UT")
CODECS = {"ISO_IR 100": "latin-1", "ISO_IR 192": "utf-8"}
SIZES = {"US": 2, "SS": 2, "UL": 4, "SL": 4, "UV": 8, "SV": 8}
BINARY = ("OB", "OD", "OF", "OL", "OV", "OW", "UN")


def fail(what):
    """Ends with status 1, and says why."""
    print(f"tests/interop/json_lines.py: {what}", file=sys.stderr)
    sys.exit(1)


def wanted(is_so, what):
    """Ends with status 1 where something is not so."""
    if not is_so:
        fail(what)


# ---- lines

def members(pairs):
    """An object, in which no name stands twice."""
    names = [name for name, _ in pairs]
    wanted(len(set(names)) == len(names), f"a name stands twice in {names}")
    return dict(pairs)


def lines_of(path):
    """The lines of a file in UTF-8, of which each one ends."""
    text = pathlib.Path(path).read_bytes().decode("utf-8")
    wanted(text == "" or text.endswith("\n"), f"the last line of {path} does not end")
    return text.split("\n")[:-1]


def objects_of(path):
    """The objects on the lines of a file."""
    return [json.loads(line, object_pairs_hook=members, parse_constant=fail) for line in lines_of(path)]


class Schema:
    """The schema of a line."""

    def __init__(self):
        # Only some of the commands need the package.
        from jsonschema import Draft202012Validator
        text = json.loads(SCHEMA.read_text(encoding="utf-8"))
        Draft202012Validator.check_schema(text)
        self.kinds = [text["$defs"][kind["$ref"].split("/")[-1]] for kind in text["oneOf"]]
        self.validator = Draft202012Validator(text)

    def takes(self, line):
        """Does an object meet the schema?"""
        return self.validator.is_valid(line)

    def order(self, line):
        """The members of an object in the order of the schema."""
        for kind in self.kinds:
            names = kind["properties"]
            if names["line"]["const"] == line["line"] and set(line) <= set(names):
                return [name for name in names if name in line]
        return None

    def hold(self, line):
        """Ends with status 1 where an object does not meet the schema, or has its members in another order."""
        wanted(self.takes(line), f"the schema does not take {json.dumps(line)}")
        wanted(list(line) == self.order(line), f"the members stand in another order: {json.dumps(line)}")


# ---- words

def shown(path):
    """A path as it is printed without --json."""
    return "-" if path is None else CONTROL.sub("?", path)


def note_words(line):
    """The words of a NOTE line."""
    kind, path, uid = line["kind"], shown(line.get("path")), line.get("uid")
    if kind == "names":
        nobody = " or none" if line["patient_id"] == "NOID" else ""
        names = ", ".join(name or "-" for name in line["names"])
        more = ", .." if line["count"] > len(line["names"]) else ""
        return f"-: Patient ID {line['patient_id']}{nobody} has {line['count']} names: {names}{more}"
    return {
        "left_out": lambda: f"{path}: left out for {shown(line['kept'])}: same SOP Instance UID {uid}, other bytes",
        "conflict": lambda: f"{path}: has {uid}",
        "unreached": lambda: f"{path}: {line['records']} records are not reached",
        "withdrawn": lambda: f"{path}: withdrawn in {shown(line['by'])}: {uid}",
        "unlisted": lambda: f"-: {uid} is in no record",
    }[kind]()


def record_words(line):
    """The words of a record in the short list."""
    inactive = "" if line["in_use"] else " inactive"
    return "  " * line["level"] + f"{line['offset']} {line['type']} {line['key'] or '-'}{inactive}"


def mislabelled_words(line):
    """The words of a MISLABELLED line."""
    return f"{line['file']} {line['tag'] if 'tag' in line else line['fault']['words']}"


def plan_words(line):
    """The words of a PLAN line."""
    images = f", {line['image_bytes']} bytes of images" if "image_bytes" in line else ""
    return f"{line['instances']} instances, {line['bytes']} bytes{images}"


def done_words(line):
    """The words of a DONE line: of a pile or of a file-set."""
    if "sources" in line:
        return f"{line['sources']} sources, {line['skipped']} skipped, {line['image_bytes']} bytes of images"
    return plan_words(line)


def fault_words(line):
    """The words of a FAULT line, and its hints."""
    hints = "".join(f"\n  {hint}: {line[hint]}" for hint in ("cause", "help") if hint in line)
    return f"{shown(line['path'])}: {line['fault']['words']}{hints}"


def sum_words(line):
    """The words of what became of sources or images."""
    head = f"{line['sources']} sources" if "sources" in line else f"{line['sets']} sets, {line['images']} images"
    counts = [f"{line[name]} {name.replace('_', ' ')}"
              for name in ("kept", "skipped", "left_out", "repeated", "withdrawn") if name in line]
    return f"{head}: {', '.join(counts)}" + ("" if line["kept"] else ": the file-set has no image")


# What stands after the name of a line; of these lines the name is not printed, or not in front.
AFTER = {
    "FILE-SET": lambda line: f"{line['id'] or '-'} {line['uid'] or '-'}",
    "WITHDRAWN": lambda line: line["uid"],
    "BADID": lambda line: line["offset"],
    "MISSING": lambda line: line["file"],
    "UNREADABLE": lambda line: line["file"],
    "NODIGEST": lambda line: line["file"],
    "DIFFERS": lambda line: f"{line['file']} {line['recorded']} {line['found']}",
    "MISLABELLED": mislabelled_words,
    "UNREACHED": lambda line: line["items"],
    "OK": lambda line: f"{line['records']} records",
    "BROKEN": lambda line: line["fault"]["words"],
    "SKIP": lambda line: f"{shown(line['path'])}: {line['fault']['words']}",
    "NOTE": note_words,
    "PLAN": plan_words,
    "DONE": done_words,
    "FAULT": fault_words,
}
WHOLE = {
    "RECORD": record_words,
    "RECORDS": lambda line: f"{line['records']} records, {line['unreached']} unreached",
    "SUM": sum_words,
}


def hold_fault(line):
    """The words of a fault begin with its number and name, and go on with its cause, if it has one."""
    fault = line.get("fault")
    if fault is None:
        return
    rest = fault["words"].removeprefix(f"{fault['number']} {fault['name']}")
    found = re.match(r" (\d\d) ([A-Z]\w*)", rest)
    cause = {"number": int(found[1]), "name": found[2]} if found else None
    wanted(rest != fault["words"] and cause == fault.get("cause"), f"the words of {fault} say something else")
    wanted("class_name" not in fault or fault["number"] == 32, f"{fault} names a class")


def words_of(line):
    """What the program prints of the same without --json."""
    hold_fault(line)
    kind = line["line"]
    return WHOLE[kind](line) if kind in WHOLE else f"{kind} {AFTER[kind](line)}"


def print_words(path):
    """Prints the words of each line of a file, of which each meets the schema."""
    schema = Schema()
    for line in objects_of(path):
        schema.hold(line)
        print(words_of(line))


def compare_paths(path, *paths):
    """Compares the paths that the lines of a file name with these."""
    named = [line[name] for line in objects_of(path) for name in ("path", "kept", "by") if name in line]
    wanted(named == list(paths), f"the lines name {named} and not {list(paths)}")


# ---- samples

def changed(line):
    """The object with one member left out, of another type, or more."""
    for name in line:
        yield name, {other: value for other, value in line.items() if other != name}
        yield None, {**line, name: [line[name]]}
        if isinstance(line[name], dict) and name != "elements":
            yield from ((None, {**line, name: one}) for part, one in changed(line[name])
                       if part not in ("cause", "class_name"))
    yield None, {**line, "more": 1}


def try_samples(path):
    """Each line of the file meets the schema and has the words below it, and none with a changed member does."""
    schema, count = Schema(), 0
    for part in re.split(r"\n(?=\{)", pathlib.Path(path).read_text(encoding="utf-8").rstrip("\n")):
        text, *words = part.split("\n")
        line = json.loads(text, object_pairs_hook=members)
        schema.hold(line)
        said = "\n".join(word.removeprefix("    ") for word in words)
        wanted(words_of(line) == said, f"the words of {text} are {words_of(line)}")
        for name, other in changed(line):
            is_right = (line["line"], name) in OPTIONAL
            wanted(schema.takes(other) == is_right, f"the schema takes {json.dumps(other)}, or should")
            count += 1
    print(f"JSON: the schema takes the samples, and refuses all but a few of {count} changed ones")


# ---- elements

def codec_of(data, around):
    """The codec of a data set's texts, by its Specific Character Set (0008,0005)."""
    raw = data.get_item(0x00080005)
    term = raw_value(raw).decode("latin-1").strip(" \0") if raw is not None else ""
    return CODECS.get(term, "ascii") if raw is not None and raw_value(raw) else around


def raw_value(raw):
    """The bytes of an element as they stand in the file."""
    return raw.value if isinstance(raw.value, bytes) else b""


def is_text(vr, value, codec):
    """Are these bytes a text of their value representation?"""
    try:
        text = value.rstrip(b" \0").decode(codec if vr in BY_CHARACTER_SET else "ascii")
    except UnicodeDecodeError:
        return False
    plain = re.sub("[\t\n\f\r]", "", text) if vr in WITH_LINES else text
    return not (CONTROL.search(plain) if codec == "latin-1" else re.search("[\0-\x1f\x7f]", plain))


def has_form(vr, value, codec):
    """Has the DICOM JSON model a form for these bytes, beside the one for bytes?"""
    if vr in ("FL", "FD"):
        return False
    if vr in SIZES:
        return len(value) == SIZES[vr]
    return len(value) % 4 == 0 if vr == "AT" else is_text(vr, value, codec)


def plain(value):
    """A value as text, without padding: of a list its values, of a name its groups."""
    if isinstance(value, (list, tuple)) or type(value).__name__ == "MultiValue":
        return [plain(one) for one in value]
    if isinstance(value, (bytes, int, float)):
        return float(value) if isinstance(value, float) else value
    text = "" if value is None else str(value)
    return text.strip(" \0").rstrip("=")


def compare_bytes(where, member, raw, codec):
    """Is a value that is kept as bytes one, and without a form of its own?"""
    wanted(member["vr_recorded"] == raw.VR, f"{where}: recorded as {raw.VR}")
    wanted(base64.b64decode(member["InlineBinary"], validate=True) == raw.value, f"{where}: other bytes")
    wanted(raw.value and not has_form(raw.VR, raw.value, codec), f"{where}: the value has a form of its own")


def compare_values(where, found, read, raw, codec):
    """Compares the element that pydicom makes of a member with the one that it reads."""
    wanted(found.VR == read.VR, f"{where}: {found.VR} for {read.VR}")
    if read.VR == "SQ":
        wanted(len(found.value) == len(read.value), f"{where}: {len(found.value)} items")
        return
    wanted(plain(found.value) == plain(read.value), f"{where}: {found.value!r} for {read.value!r}")
    wanted(read.VR in BINARY or not raw.value or has_form(read.VR, raw.value, codec), f"{where}: no form")


def compare_sets(where, given, data, around):
    """Compares a data set in the DICOM JSON model with the one that pydicom reads of the DICOMDIR."""
    codec = codec_of(data, around)
    wanted(list(given) == [f"{int(tag):08X}" for tag in sorted(data.keys())], f"{where}: other elements {list(given)}")
    count = 0
    for name, member in given.items():
        tag, place = int(name, 16), f"{where} ({name[:4]},{name[4:]})"
        raw = data.get_item(tag)
        count += 1
        if "vr_recorded" in member:
            compare_bytes(place, member, raw, codec)
            continue
        found, read = type(data).from_json({name: member})[tag], data[tag]
        compare_values(place, found, read, raw, codec)
        if read.VR == "SQ":
            count += sum(compare_sets(place, *pair, codec) for pair in zip(member.get("Value", []), read.value))
    return count


def compare_file(where, line):
    """Compares the File ID (0004,1500) of a record with its element, where that is text."""
    member = line["elements"].get("00041500", {})
    if "vr_recorded" not in member:
        named = "\\".join(value or "" for value in member.get("Value", []))
        wanted(line.get("file", "") == named, f"{where}: the file {named}")


def shown_names(name):
    """The names under which systems show a recorded one, in the order of the look-up."""
    low, ends = name.lower(), (".;1", ";1", ".")
    return [name, low, *(name + end for end in ends), *(low + end for end in ends)]


def found_path(folder, file):
    """The path of the file with this File ID in a folder, and None where none is there."""
    place = pathlib.Path(folder)
    if not FILE_ID.fullmatch(file):
        return None
    for name in file.split("\\"):
        places = [place / one for one in shown_names(name)]
        place = next((one for one in places if one.exists() and not one.is_symlink()), None)
        if place is None:
            return None
    return str(place) if place.is_file() else None


def records_of(path):
    """The records of a DICOMDIR by their offsets, of which pydicom has converted no value yet. Where it reads the file
    whole it has converted some."""
    import pydicom
    from pydicom.filereader import read_dataset, read_file_meta_info
    pydicom.config.replace_un_with_known_vr = False
    group = read_file_meta_info(path)
    with open(path, "rb") as file:
        # The preamble, `DICM`, the element with the length of the group, and the group.
        file.seek(128 + 4 + 12 + group.FileMetaInformationGroupLength)
        data = read_dataset(file, is_implicit_VR=False, is_little_endian=True)
        return {record.seq_item_tell: record for record in data.get("DirectoryRecordSequence") or []}


def compare_elements(path, folder):
    """Compares the elements of each record of a list with those that pydicom reads at its offset."""
    records = records_of(pathlib.Path(folder, "DICOMDIR"))
    listed = [line for line in objects_of(path) if line["line"] == "RECORD"]
    count = 0
    for line in listed:
        where = f"{folder}: the record at {line['offset']}"
        wanted(line["offset"] in records and "elements" in line, f"{where}: not there, or without elements")
        count += compare_sets(where, line["elements"], records[line["offset"]], "ascii")
        compare_file(where, line)
        place = found_path(folder, line.get("file", ""))
        wanted(line["path"] == place, f"{where}: the path {line['path']} and not {place}")
    print(f"pydicom: {count} elements of {len(listed)} records of {shown(pathlib.Path(folder).name)}, as in the list")


if __name__ == "__main__":
    # Some values are not of the form that the standard asks for.
    warnings.simplefilter("ignore")
    {"words": print_words, "paths": compare_paths, "elements": compare_elements,
     "samples": try_samples}[sys.argv[1]](*sys.argv[2:])
