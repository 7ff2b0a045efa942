#!/usr/bin/python3
"""Chooses files for file-sets by pydicom's reading, and compares what readers find with the files.

    compare.py choose FILES TAKEN REFUSED FAULTS COUNT
        lists of paths, the lines of those that are refused for how they are encoded, how many instances are taken
    compare.py leave TAKEN INSTANCE LEFT
        the list of the files to take, and the same without the files of an instance
    compare.py check OUT TAKEN SEEN
        a file-set, its sources, what each reader printed of it
"""
import collections
import hashlib
import pathlib
import re
import sys
import warnings

import pydicom
from pydicom.dataelem import RawDataElement
from pydicom.encaps import generate_pixel_data_fragment, get_frame_offsets
from pydicom.filebase import DicomBytesIO
from pydicom.fileset import FileSet
from pydicom.uid import UID

# The image classes and the transfer syntaxes that the program takes.
IMAGES = {
    "1.2.840.10008.5.1.4.1.1." + last
    for last in (
        "1 1.1 1.1.1 1.2 1.2.1 2 2.1 3.1 4 4.1 6.1 7 7.1 7.2 7.3 7.4 12.1 12.2 20 77.1.1 77.1.2 77.1.4 128"
    ).split()
}
ENCAPSULATED = {"1.2.840.10008.1.2." + last for last in "4.50 4.51 4.70 4.80 4.81 4.90 4.91 5".split()}
SYNTAXES = {"1.2.840.10008.1.2", "1.2.840.10008.1.2.1"} | ENCAPSULATED
# Of those that it does not take: deflated, big endian, JPEG Lossless with any predictor, JPEG Progressive.
OTHERS = {"1.2.840.10008.1.2." + last for last in "1.99 2 4.57 4.55".split()}
# What stands in place of a length where a delimiter stands at the end.
UNDEFINED = 0xFFFFFFFF
KINDS = ["PATIENT", "STUDY", "SERIES", "IMAGE"]
# What names a record of each kind, in the file and, for dumps, in the record.
NAMES = ["PatientID", "StudyInstanceUID", "SeriesInstanceUID", "SOPInstanceUID"]
NAME_TAGS = ["0010,0020", "0020,000d", "0020,000e", "0004,1511"]
# What else a record of each kind has from its files.
KEYS = [
    ["PatientName"],
    ["StudyDate", "StudyTime", "AccessionNumber", "StudyDescription", "StudyID"],
    ["Modality", "SeriesNumber"],
    ["InstanceNumber", "SOPClassUID"],
]
# What stands for an empty value where a record must have one.
REPLACED = {"PatientID": "NOID", "StudyDate": "19000101", "StudyTime": "000000", "StudyID": "0",
            "Modality": "OT", "SeriesNumber": "0", "InstanceNumber": "0"}
# A date, a time and a UID as PS3.5 sections 6.2 and 9.1 want them. pydicom also reads older ones.
FORMS = {"StudyDate": r"\d{8}", "StudyTime": r"\d\d(\d\d(\d\d(\.\d{1,6})?)?)?", "UID": r"[012]\.[0-9.]+"}

# names: what names its four records. keys: what else these have. multiple: has it several frames? fragments: how
# many bytes each fragment of its pixel data has, the offset table being the first, where it has fragments.
Source = collections.namedtuple("Source", "path names keys syntax modality multiple fragments")
# A record as a reader sees it: its level, its name or None, and the File ID of an image.
Row = collections.namedtuple("Row", "level name file")


def fail(text):
    """Ends the program."""
    sys.exit(f"tests/interop/compare.py: {text}")


def wanted(condition, text):
    """Ends the program where something is not as wanted."""
    if not condition:
        fail(text)


def value_of(holder, keyword):
    """The value of a file or a record as text, or what stands for an empty one."""
    value = holder[keyword].value if keyword in holder else None
    return ("" if value is None else str(value)) or REPLACED.get(keyword, "")


def pixels_of(data):
    """The pixel data where its length is undefined, so that its value is fragments; or None."""
    pixels = data.get_item("PixelData")
    return pixels if isinstance(pixels, RawDataElement) and pixels.length == UNDEFINED else None


def fragments_of(data):
    """How many bytes each fragment has, the offset table being the first. ValueError where these are no fragments."""
    pixels = pixels_of(data)
    if pixels is None:
        return ()
    stream = DicomBytesIO(pixels.value)
    stream.is_little_endian = True
    has_offsets, offsets = get_frame_offsets(stream)
    fragments = tuple(len(fragment) for fragment in generate_pixel_data_fragment(stream))
    return (4 * len(offsets) if has_offsets else 0,) + fragments


def is_whole(element):
    """Has pydicom read as many bytes as the length says, and an even number? A sequence is read whole."""
    if not isinstance(element, RawDataElement) or element.length == UNDEFINED:
        return True
    return element.length == len(element.value or b"") and element.length % 2 == 0


def has_whole_pixels(data):
    """Is pydicom's pixel data, where its length is undefined, a list of fragments as the standard wants it?"""
    pixels = pixels_of(data)
    if pixels is None:
        return True
    try:
        even = all(size % 2 == 0 for size in fragments_of(data))
    except ValueError:
        return False
    named = not pixels.is_implicit_VR and pixels.VR == "OB"
    return even and named and data.file_meta.TransferSyntaxUID in ENCAPSULATED


def is_taken(data):
    """Must the program take what pydicom has read?"""
    meta = data.file_meta
    if meta.get("MediaStorageSOPClassUID") not in IMAGES or meta.get("TransferSyntaxUID") not in SYNTAXES:
        return False
    tags = list(data.keys())
    if tags != sorted(tags) or not all(is_whole(element) for element in list(data.values())):
        return False
    if not has_whole_pixels(data):
        return False
    uids = [value_of(data, keyword) for keyword in NAMES[1:]]
    same = [
        data.get("SOPClassUID") == meta.MediaStorageSOPClassUID,
        data.get("SOPInstanceUID") == meta.get("MediaStorageSOPInstanceUID"),
    ]
    return all(same) and all(UID(uid).is_valid for uid in uids)


def has_forms(source):
    """Are the dates, times and UIDs that the records copy such that no reader finds fault with them?"""
    date, time = source.keys[1][:2]
    uids = source.names[1:]
    return bool(
        re.fullmatch(FORMS["StudyDate"], date)
        and re.fullmatch(FORMS["StudyTime"], time)
        and all(re.fullmatch(FORMS["UID"], uid) for uid in uids)
    )


def read_file(path):
    """What pydicom reads, or None where it is no DICOM file."""
    try:
        return pydicom.dcmread(path)
    except pydicom.errors.InvalidDicomError:
        return None


def read_source(path):
    """A file that the program must take, or None."""
    data = read_file(path)
    if data is None or not is_taken(data):
        return None
    return Source(
        path,
        tuple(value_of(data, keyword) for keyword in NAMES),
        tuple(tuple(value_of(data, keyword) for keyword in level) for level in KEYS),
        str(data.file_meta.TransferSyntaxUID),
        value_of(data, "Modality"),
        int(data.get("NumberOfFrames") or 1) > 1,
        fragments_of(data),
    )


def fault_of(path):
    """The fault of a file that is refused for its transfer syntax, or for fragments that are not OB; or None."""
    data = read_file(path)
    if data is None or "TransferSyntaxUID" not in data.file_meta:
        return None
    if data.file_meta.TransferSyntaxUID not in SYNTAXES:
        return f"31 File 25 OtherSyntax {data.file_meta.TransferSyntaxUID}"
    pixels = pixels_of(data)
    if pixels is None or pixels.is_implicit_VR or pixels.VR == "OB":
        return None
    return "31 File 27 Set 6 UndefinedLength"


def digest_of(source):
    """The SHA-256 of a source."""
    return hashlib.sha256(pathlib.Path(source.path).read_bytes()).digest()


def kept_of(sources):
    """Of each instance the source that a file-set has: the one whose digest is the greatest."""
    kept = {}
    for source in sources:
        instance = source.names[3]
        kept[instance] = max(kept.get(instance, source), source, key=digest_of)
    return list(kept.values())


def check_syntaxes(sources):
    """Is each transfer syntax that the program takes among these?"""
    missing = SYNTAXES - {source.syntax for source in sources}
    wanted(not missing, f"no image is of {', '.join(sorted(missing))}")


def choose(files, taken, refused, faults, count):
    """Sorts files into those that the program must take and those that it must skip, and names the rest."""
    sources, skipped = [], {}
    for path in lines_of(files):
        source = read_source(path)
        if source is None:
            skipped[path] = fault_of(path)
        elif has_forms(source):
            sources.append(source)
        else:
            print(f"left out, for a date, a time or a UID that no record may have: {path}")
    modalities = {source.modality for source in sources}
    patients = {source.names[0] for source in sources}
    kept = kept_of(sources)
    frames = sum(source.multiple for source in sources)
    print(f"{len(sources)} files to take: {len(kept)} instances of {len(patients)} patients, "
          f"{', '.join(sorted(modalities))}, {frames} of several frames; {len(skipped)} files to skip")
    wanted(modalities >= {"CT", "MR", "US"}, "CT, MR or US is not there")
    check_syntaxes(kept)
    wanted(len(patients) >= 3 and frames >= 1 and len(skipped) >= 2, "too few patients, frames or files to skip")
    missing = OTHERS - {fault.split()[-1] for fault in skipped.values() if fault}
    wanted(not missing, f"no file to skip is of {', '.join(sorted(missing))}")
    pathlib.Path(taken).write_text("".join(f"{source.path}\n" for source in sources))
    pathlib.Path(refused).write_text("".join(f"{path}\n" for path in sorted(skipped)))
    lines = sorted(f"SKIP {path}: {fault}\n" for path, fault in skipped.items() if fault)
    pathlib.Path(faults).write_text("".join(lines))
    pathlib.Path(count).write_text(f"{len(kept)}\n")


def leave(taken, instance, left):
    """Leaves the files of an instance out of a list."""
    paths = [path for path in lines_of(taken) if read_source(path).names[3] != instance]
    wanted(len(paths) < len(lines_of(taken)), f"no file is of {instance}")
    pathlib.Path(left).write_text("".join(f"{path}\n" for path in paths))


def lines_of(path):
    """The lines of a file."""
    return pathlib.Path(path).read_text().splitlines()


def copies(out, sources):
    """The source of each file of a file-set but its directory, by File ID: the same bytes, and what pydicom reads."""
    known = {pathlib.Path(source.path).read_bytes(): source for source in kept_of(sources)}
    found = {}
    for path in sorted(pathlib.Path(out).rglob("*")):
        if path.is_file() and path != pathlib.Path(out, "DICOMDIR"):
            source = known.get(path.read_bytes())
            wanted(source, f"{path} is not the source that a file-set has of its instance")
            wanted(read_source(path) == source._replace(path=path), f"pydicom: {path} is not read as its source")
            found["\\".join(path.relative_to(out).parts)] = source
    return found


def check_tree(reader, rows, files):
    """Are the records that a reader found, depth first, the records of the files, and each where it belongs?"""
    path, names_of, record_of, counts = [], {}, {}, [0] * len(KINDS)
    for number, row in enumerate(rows):
        wanted(row.level <= len(path), f"{reader}: {KINDS[row.level]} {row.name} stands below no parent")
        path[row.level:] = [(number, row.name)]
        counts[row.level] += 1
        if row.level < 3:
            continue
        source = files.get(row.file)
        wanted(source, f"{reader}: {row.file} is not there")
        for level, (record, name) in enumerate(path):
            names = source.names[: level + 1]
            wanted(name in (None, names[level]), f"{reader}: {row.file} stands below {KINDS[level]} {name}")
            wanted(names_of.setdefault(record, names) == names, f"{reader}: {row.file} stands in a wrong place")
            wanted(record_of.setdefault(names, record) == record, f"{reader}: {names} has two records")
    expected = [len({source.names[: level + 1] for source in files.values()}) for level in range(len(KINDS))]
    wanted(counts == expected, f"{reader}: {counts} records instead of {expected}")
    print(f"{reader}: " + ", ".join(f"{count} {kind}" for count, kind in zip(counts, KINDS)))


def plain(value):
    """A value of a dump: what stands in brackets, without padding, or a number."""
    return value[1:-1].rstrip(" \0") if value.startswith("[") else value


def dumped(text, start, reader):
    """The elements ahead of the records, and of each record, that a dump names, in its order."""
    ahead, records = {}, []
    for line in text.splitlines():
        if re.match(start, line):
            records.append({})
            continue
        place = re.match(r" *#  offset=\$(\d+)", line)
        if place:
            records[-1]["offset"] = int(place[1])
        element = re.match(r" *\((\w{4},\w{4})\) \w\w (\[.*\]|\S+).*? *# ", line)
        if element:
            (records[-1] if records else ahead)[element[1]] = plain(element[2])
    wanted(records, f"{reader}: no records")
    return ahead, records


def row_of(record, reader):
    """The row of a dumped record."""
    kind = record.get("0004,1430")
    wanted(kind in KINDS, f"{reader}: a record of the type {kind}")
    level = KINDS.index(kind)
    return Row(level, record.get(NAME_TAGS[level]), record.get("0004,1500"))


def links(records):
    """The two offsets of each dumped record."""
    return [(int(record["0004,1400"]), int(record["0004,1420"])) for record in records]


def walk(ahead, records, reader):
    """The dumped records as the offsets lead to them, each once, depth first."""
    known = {record["offset"]: record for record in records}
    order, waiting, last = [], [int(ahead["0004,1200"])], 0
    while waiting:
        offset = waiting.pop()
        if offset == 0:
            continue
        wanted(offset in known, f"{reader}: no record at {offset}, or a second way to it")
        record = known.pop(offset)
        order.append(record)
        last = offset if record["0004,1430"] == KINDS[0] else last
        waiting += [int(record["0004,1400"]), int(record["0004,1420"])]
    wanted(not known, f"{reader}: no way to the records at {sorted(known)}")
    wanted(last == int(ahead["0004,1202"]), f"{reader}: the last root is at {last}")
    return order


def check_dumps(seen, files):
    """Compares what dcmdump, by its offsets, and gdcmdump, in the order of the items, have found."""
    ahead, records = dumped(seen["dcmdump"], r' *\(fffe,e000\) na "Directory Record"', "dcmdump")
    order = walk(ahead, records, "dcmdump")
    check_tree("dcmdump", [row_of(record, "dcmdump") for record in order], files)
    front, items = dumped(seen["gdcmdump"], r"  \(fffe,e000\) na ", "gdcmdump")
    check_tree("gdcmdump", [row_of(record, "gdcmdump") for record in items], files)
    tags = ("0004,1200", "0004,1202")
    wanted([front[tag] for tag in tags] == [ahead[tag] for tag in tags] and links(items) == links(records),
           "gdcmdump sees other offsets than dcmdump")


def check_copies(text, out, files):
    """Compares what dcmdump prints of each copy with what pydicom reads: transfer syntax, instance and fragments."""
    dumps = {}
    for line in text.splitlines():
        start = re.match(r"# dcmdump \(\d+/\d+\): (.*)", line)
        element = re.match(r"\((0002,0010|0008,0018)\) UI \[(.*)\] +#", line)
        fragment = re.match(r"  \(fffe,e000\) pi .* # +(\d+), 1 Item$", line)
        if start:
            dump = dumps.setdefault(start[1], {"fragments": ()})
        elif element:
            dump[element[1]] = element[2]
        elif fragment:
            dump["fragments"] += (int(fragment[1]),)
    for name, source in files.items():
        path = str(pathlib.Path(out, *name.split("\\")))
        known = {"0002,0010": source.syntax, "0008,0018": source.names[3], "fragments": source.fragments}
        wanted(dumps.get(path) == known, f"dcmdump: {path} has {dumps.get(path)} and not {known}")
    check_syntaxes(files.values())
    counts = collections.Counter(source.syntax for source in files.values())
    print(f"copies: {len(files)} files, as their sources: "
          + ", ".join(f"{count} of {syntax}" for syntax, count in sorted(counts.items())))


def check_verdicts(seen, files):
    """No reader prints an error, dcmftest says yes to every file, and dciodvfy names the kind of object."""
    for reader, text in seen.items():
        errors = [line for line in text.splitlines() if re.search(r"^[EF]: |\bError\b", line)]
        wanted(not errors, f"{reader}: " + "; ".join(errors))
    verdicts = seen["dcmftest"].splitlines()
    refused = [line for line in verdicts if not line.startswith("yes: ")]
    wanted(not refused and len(verdicts) == len(files) + 1, f"dcmftest: {len(verdicts)} files, {refused}")
    print(f"dcmftest: {len(verdicts)} files")
    wanted("BasicDirectory" in seen["dciodvfy"].splitlines(), "dciodvfy sees no directory")
    print(f"dciodvfy: no error, {seen['dciodvfy'].count('Warning')} warnings")


def check_dcdirdmp(seen, files):
    """Compares the tree that dcdirdmp prints, with File IDs but without UIDs."""
    rows = []
    for line in seen["dcdirdmp"].splitlines():
        head = re.match(r"\t*(PATIENT|STUDY|SERIES|IMAGE)\b", line)
        file = re.match(r"\t* -> (\S+)", line)
        if head:
            rows.append(Row(KINDS.index(head[1]), None, None))
        elif file:
            rows[-1] = rows[-1]._replace(file=file[1])
    check_tree("dcdirdmp", rows, files)


def check_keys(instance, source, sources):
    """Has an image the keys of its source, and each parent the keys of one source below it?"""
    path = instance.path
    for level, keywords in enumerate(KEYS):
        keys = tuple(value_of(instance, keyword) for keyword in keywords)
        names = source.names[: level + 1]
        below = [source] if level == 3 else [other for other in sources if other.names[: level + 1] == names]
        known = {other.keys[level] for other in below}
        wanted(keys in known, f"pydicom: {path}: {KINDS[level]} has {keys} and not {known}")
    wanted(instance.TransferSyntaxUID == source.syntax, f"pydicom: {path}: transfer syntax")
    wanted(instance[0x00091001].value == digest_of(source), f"pydicom: {path}: digest")


def file_id(instance):
    """The File ID of an image that pydicom has found."""
    return "\\".join(instance.ReferencedFileID)


def pydicom_rows(node):
    """The rows of the tree that pydicom has made by the offsets, below a node."""
    for child in node.children:
        wanted(child.record_type in KINDS, f"pydicom: a record of the type {child.record_type}")
        file = file_id(child.instance) if child.has_instance else None
        yield Row(KINDS.index(child.record_type), child.key, file)
        yield from pydicom_rows(child)


def load(path):
    """The file-set of a directory in which pydicom finds nothing wrong and no record is left over."""
    with warnings.catch_warnings():
        warnings.simplefilter("error", UserWarning)
        try:
            loaded = FileSet(path)
            loaded.load(path, raise_orphans=True)
        except (AttributeError, KeyError, ValueError, UserWarning) as fault:
            fail(f"pydicom: {fault!r}")
    return loaded


def check_pydicom(out, files, sources):
    """Compares the tree and the keys of the file-set that pydicom loads."""
    loaded = load(pathlib.Path(out, "DICOMDIR"))
    instances = list(loaded)
    wanted(len(instances) == len(files), f"pydicom: {len(instances)} instances of {len(files)} files")
    check_tree("pydicom", list(pydicom_rows(instances[0].node.root)), files)
    for instance in instances:
        wanted(pathlib.Path(instance.path).is_file(), f"pydicom: {instance.path} does not exist")
        source = files[file_id(instance)]
        wanted(instance.SOPInstanceUID == source.names[3], f"pydicom: {instance.path}: instance")
        check_keys(instance, source, sources)


def check(out, taken, seen):
    """Compares a file-set with its sources, by each reader."""
    sources = [read_source(path) for path in lines_of(taken)]
    files = copies(out, sources)
    instances = {source.names[3] for source in sources}
    wanted({source.names[3] for source in files.values()} == instances and len(files) == len(instances),
           f"{len(files)} copies of {len(instances)} instances")
    printed = {path.name: path.read_text(errors="replace") for path in pathlib.Path(seen).iterdir()}
    check_copies(printed.pop("dcmdump-copies"), out, files)
    check_dumps(printed, files)
    check_verdicts(printed, files)
    check_dcdirdmp(printed, files)
    check_pydicom(out, files, sources)


if __name__ == "__main__":
    # Many of pydicom's files are made to be warned of.
    warnings.simplefilter("ignore")
    {"choose": choose, "leave": leave, "check": check}[sys.argv[1]](*sys.argv[2:])
