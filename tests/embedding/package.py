"""The package beside pydicom, texts, names on discs, what `python -m dicomdir` prints, and where no import succeeds.

    package.py MADE ROOM
"""
import copy
import gc
import hashlib
import io
import os
import pickle
import shutil
import subprocess
import sys
import textwrap
import threading
import tracemalloc
import warnings
from hashlib import sha256
from pathlib import Path

import dicomdir
from cases import EXAMPLES, TOP, copy_shown, head_of, run
from crafted import element
from dicomdir import _bytes, _calls, _opening, _records, _text

made, room = Path(sys.argv[1]), Path(sys.argv[2])
passed = 0


def same(what, found, wanted=True):
    """Counts what is as wanted, and ends where something is not."""
    global passed
    if found != wanted:
        sys.exit(f"package: {what}: {found!r} in place of {wanted!r}")
    passed += 1


def beside_pydicom():
    """Each image's path, UID and keys, as pydicom's FileSet has them."""
    import pydicom
    from pydicom.fileset import FileSet
    warnings.simplefilter("ignore")
    names = ("SOPInstanceUID", "PatientID", "PatientName", "StudyInstanceUID", "StudyDate", "Modality")
    for folder in sorted(made.iterdir()):
        theirs, ours = FileSet(pydicom.dcmread(folder / "DICOMDIR")), dicomdir.read(folder)
        wanted = sorted((one.path, *(str(one[name].value) for name in names)) for one in theirs)
        found = sorted((one.path, *(one.get(name) or "" for name in names)) for one in ours)
        same(f"{folder.name}: images", found, wanted)
        same(f"{folder.name}: ID and UID", (ours.ID or None, ours.UID), (theirs.ID, str(theirs.UID)))
        found, wanted = (sorted(one.find_values("PatientID")) for one in (ours, theirs))
        same(f"{folder.name}: find_values", found, wanted)
        one = next(iter(ours))
        found, wanted = (sorted(it.path for it in disc.find(PatientID=one.PatientID, Modality=one.Modality))
                         for disc in (ours, theirs))
        same(f"{folder.name}: find", found, wanted)
        same(f"{folder.name}: load", one.load().SOPInstanceUID, one.SOPInstanceUID)
        same(f"{folder.name}: dataset", str(one.dataset().ReferencedSOPInstanceUIDInFile), one.SOPInstanceUID)
        same(f"{folder.name}: another keyword", one.raw("RecordInUseFlag"), b"\xff\xff")


def tree():
    """Patients, studies, series and images, by names and by `children`."""
    disc = dicomdir.FileSet.build(EXAMPLES).write(room / "tree")
    same("patients", [one.PatientID for one in disc.patients], ["P1", "P2"])
    images = [image for patient in disc.patients for study in patient.studies for series in study.series
              for image in series.images]
    same("images", images, list(disc))
    same("parents", images[0].parent.parent.parent, disc.patients[0])
    same("children", [one.record_type for one in disc.patients[0].children], ["STUDY"])
    same("len and in", (len(disc), images[0] in disc, disc.records[0] in disc), (3, True, False))
    same("inherited", (images[0].PatientID, images[0].raw("PatientID")), ("P1", b""))
    same("find of a number", len(disc.find(SeriesNumber=4711)), 0)
    same("several keywords", sorted(disc.find_values(["Modality", "PatientID"])), ["Modality", "PatientID"])
    same("a copy", copy.copy(images[0]).PatientID, "P1")
    for name in "Modalty", "modality", "_x":
        same(f"no keyword {name}", hasattr(images[0], name), False)
    same("bytes", len(dicomdir.read((room / "tree/DICOMDIR").read_bytes())), 3)
    same("a file", dicomdir.read(room / "tree/DICOMDIR").check(), [])
    same("listing", disc.listing(), run("list", room / "tree")[1])
    # Under names that a disc has, and through no link.
    for path in sorted((room / "tree").rglob("*"), reverse=True):
        path.rename(path.with_name(path.name.lower() + (".;1" if path.is_file() else "")))
    small = dicomdir.read(room / "tree")
    image = next(iter(small))
    same("a path", image.path, str(room / "tree/pt000001/st000001/se000001/im000001.;1"))
    same("a File ID", image.file_id, ("PT000001", "ST000001", "SE000001", "IM000001"))
    same("no File ID", (small.records[0].path, small.records[0].file_id), (None, ()))
    same("a path without a folder", next(iter(dicomdir.FileSet(small.data))).path, "/".join(image.file_id))
    same("small names", (small.check(), len(next(iter(small)).read()) > 0), ([], True))
    os.rename(room / "tree/pt000001", room / "elsewhere")
    os.symlink(room / "elsewhere", room / "tree/pt000001")
    same("links", {one.kind for one in small.check()}, {"MISSING"})


def example():
    """The function `known` of docs/EMBEDDING.md."""
    import pydicom
    page = (TOP / "docs/EMBEDDING.md").read_text(encoding="utf-8")
    words = {"hashlib": hashlib, "io": io, "pydicom": pydicom}
    exec(textwrap.dedent(page[page.index("    def known("):page.index("    disc.check(keys=True, known=")]), words)
    return words["known"]


def discs():
    """Under each name that a system shows, each path opens, and is what was burnt. So is what is known by it."""
    known, shown = example(), room / "shown"
    for folder in sorted(made.iterdir()):
        burnt = dicomdir.read(folder)
        files, wanted = [one.read() for one in burnt], [str(one) for one in burnt.check(keys=True)]
        for form in range(8):
            copy_shown(folder, shown, form)
            disc = dicomdir.read(shown)
            same(f"{folder.name}: files in form {form}", [Path(one.path).read_bytes() for one in disc] == files)
            same(f"{folder.name}: File IDs", [one.file_id for one in disc], [one.file_id for one in burnt])
            if form in (1, 2):
                same(f"{folder.name}: known", [str(one) for one in disc.check(keys=True, known=known)], wanted)
            shutil.rmtree(shown)
    # A link is passed over, and a name that is not there is as recorded.
    burnt = dicomdir.FileSet.build(EXAMPLES[:1]).write(shown)
    path = Path(next(iter(burnt)).path)
    path.rename(path.with_name("im000001"))
    path.symlink_to("im000001")
    same("a link", next(iter(burnt)).path, str(path.with_name("im000001")))
    path.with_name("im000001").unlink()
    same("no file", next(iter(burnt)).path, str(path))


def known_files():
    """`check` of files that a caller knows: whole, by their digests, with heads, of other images, and none."""
    for folder in sorted(made.iterdir()):
        disc = dicomdir.read(folder)
        files = {image: image.read() for image in disc}
        others = dict(zip(files, [*files.values()][1:] + [*files.values()][:1]))
        away = dicomdir.FileSet(disc.data)
        for name, chosen in (("its own", files), ("other", others)):
            by_row = {image.row: data for image, data in chosen.items()}
            def whole(record):
                return by_row[record.row]
            def headed(record):
                return sha256(by_row[record.row]).digest(), head_of(by_row[record.row])
            wanted = [str(one) for one in away.check(keys=True, known=whole)]
            same(f"{folder.name}: {name} heads", [str(one) for one in away.check(keys=True, known=headed)], wanted)
            same(f"{folder.name}: {name} files", bool(wanted), name == "other" and len(files) > 1)
        wanted = [str(one) for one in disc.check(strict=True)]
        found = away.check(strict=True, known=lambda record: (sha256(files[disc.records[record.row]]).digest(), None))
        same(f"{folder.name}: digests", [str(one) for one in found], wanted)
        same(f"{folder.name}: none", {one.kind for one in away.check(known=lambda record: None)}, {"MISSING"})
    def fails(record):
        raise OSError
    same("a failed read", {one.kind for one in away.check(known=fails)}, {"UNREADABLE"})
    try:
        away.check(known=lambda record: (b"31", None))
        same("a short digest", False)
    except ValueError:
        same("a short digest", True)


def fault_of(function, *words, **names):
    """What a call raises: its class and words."""
    try:
        return "none", repr(function(*words, **names))
    except Exception as error:
        return type(error).__name__, str(error)


def arguments():
    """What can't be meant is refused, and by the words of what is wanted."""
    disc = dicomdir.FileSet.build(EXAMPLES).write(room / "arguments")
    paths, bytes_like = "build takes a list of paths, and not ", "memoryview: a bytes-like object is required, not "
    for wanted, function, *words in (
            (paths + "'folder'", dicomdir.FileSet.build, "folder"),
            (paths + "PosixPath('folder')", dicomdir.FileSet.build, Path("folder")),
            ("withdraw takes a list of SOP Instance UIDs, and not '1.2'", disc.withdraw, "1.2"),
            ("merge takes a list of file-sets, and not 'folder'", dicomdir.merge, "folder"),
            ("merge takes a list of file-sets, as `read` gives them", dicomdir.merge, disc),
            (bytes_like + "'int'", dicomdir.FileSet, 5),
            (bytes_like + "'int'", dicomdir.of_image, 5),
            (bytes_like + "'int'", dicomdir.listing, 5),
            (bytes_like + "'int'", lambda: disc.check(known=lambda record: 5)),
            (bytes_like + "'str'", lambda: disc.check(known=lambda record: ("x" * 32, None)))):
        same(wanted, fault_of(function, *words), ("TypeError", wanted))
    series = disc.patients[0].studies[0].series[0]
    found = [series.get("StudyDescription"), series.get("StudyDescription", "none"), series.get("Modality", "none")]
    same("get", found, [None, "none", "CT"])
    wanted = subprocess.run([TOP / "packaging/version"], capture_output=True, check=True, text=True).stdout.strip()
    same("version", dicomdir.__version__, wanted)
    same("repr", repr(disc), "<FileSet without ID: 2 patients, 2 studies, 2 series, 3 files>")
    same("repr with ID", repr(dicomdir.merge([disc], "DISC1").write(room / "named")),
         "<FileSet DISC1: 2 patients, 2 studies, 2 series, 3 files>")


def lengths():
    """No file of more than 4,294,967,295 bytes is read: these have a terabyte, and take no memory."""
    (room / "long").mkdir()
    with open(room / "long/DICOMDIR", "wb") as file:
        file.truncate(1 << 40)
    disc = dicomdir.FileSet.build([*EXAMPLES, room / "long/DICOMDIR"])
    same("build", [str(fault) for _, fault in disc.skipped], ["39 FileTooLong"])
    disc = disc.write(room / "short")
    image = next(iter(disc))
    os.truncate(image.path, 1 << 40)
    for name, keys in ("check", False), ("check with keys", True):
        same(name, [str(one) for one in disc.check(keys)], [f"UNREADABLE {image.raw('ReferencedFileID').decode()}"])
    for wanted, function, *words in (
            (f"{room}/long: 39 FileTooLong", dicomdir.read, room / "long"),
            (f"{room}/long/DICOMDIR: 39 FileTooLong", dicomdir.read, room / "long/DICOMDIR"),
            (f"{image.path}: 39 FileTooLong", image.read),
            (f"{image.path}: 97 Changed", dicomdir.merge([disc]).write, room / "merged")):
        same(wanted, fault_of(function, *words), ("Fault", wanted))
    # Here bytes of the caller are too long, and a file whose length the system does not say beforehand.
    there = _bytes.LONGEST
    _bytes.LONGEST = _opening.LONGEST = 100
    for function in dicomdir.FileSet, dicomdir.listing, dicomdir.of_image:
        same("bytes", fault_of(function, bytes(101)), ("Fault", "39 FileTooLong"))
    same("a file", fault_of(dicomdir.read, "/proc/cpuinfo"), ("Fault", "/proc/cpuinfo: 39 FileTooLong"))
    _bytes.LONGEST = _opening.LONGEST = there
    same("nothing is copied", [path.name for path in (room / "merged").rglob("IM*") if path.stat().st_size], [])


HELD = """
import resource, sys
import dicomdir
before = resource.getrusage(resource.RUSAGE_SELF).ru_maxrss
disc = dicomdir.FileSet.build(sys.argv[2:]).write(sys.argv[1])
print(len(disc), len(disc.check(keys=True)), (resource.getrusage(resource.RUSAGE_SELF).ru_maxrss - before) >> 10)
"""


def memory():
    """A file is held once, and not while the next one is read: two images and two other files have 128 MiB each."""
    size, sources = 128 << 20, []
    for begins in *EXAMPLES[:2], *[TOP / "examples/ct1.DICOMDIR"] * 2:
        sources += [EXAMPLES[2], room / f"large{len(sources)}"]
        sources[-1].write_bytes(begins.read_bytes() + element(0x7FE00010, b"OW", b"")[:6] + bytes(2)
                                + size.to_bytes(4, "little"))
        os.truncate(sources[-1], sources[-1].stat().st_size + size)
    ran = subprocess.run([sys.executable, "-c", HELD, room / "held", *sources], capture_output=True, check=True)
    images, found, taken = map(int, ran.stdout.split())
    same("large files", (images, found, taken < 1.25 * (size >> 20)), (3, 0, True))


def held(function):
    """What a call gives, and how many bytes Python holds for it."""
    tracemalloc.start()
    given = function()
    gc.collect()
    size, _ = tracemalloc.get_traced_memory()
    tracemalloc.stop()
    return given, size


def small_records():
    """How many bytes are held for each of 1,003 records: of a directory that is read, of all values that are asked for
    then, and of a merge."""
    data, folder = EXAMPLES[0].read_bytes(), room / "records"
    parts = (dicomdir.of_image(data.replace(b"1.2.3.4.5\0", b"1.2.3.%d" % number)) for number in range(1000, 2000))
    folder.mkdir()
    (folder / "DICOMDIR").write_bytes(_bytes.merge(parts).directory)

    def ask_for_all():
        for keyword in _records.KEYWORDS:
            disc.find_values(keyword)
    disc, read = held(lambda: dicomdir.read(folder))
    _, asked = held(ask_for_all)
    _, merged = held(lambda: dicomdir.merge([disc]))
    count = len(disc.records)
    for what, size, most in ("read", read, 520), ("values", asked, 350), ("merge", merged, 700):
        same(f"{what}: {size // count} bytes a record", size <= most * count)


def red_image():
    """An image whose Specific Character Set, with control characters, decides how a name is read."""
    data = EXAMPLES[0].read_bytes()
    first, name, after = (data.index(element(tag, kind, b"")[:6]) for tag, kind in (
        (0x00080016, b"UI"), (0x00100010, b"PN"), (0x00100020, b"LO")))
    return (data[:first] + element(0x00080005, b"CS", b"\x1b[31m\x9bRED\n") + data[first:name]
            + element(0x00100010, b"PN", b"M\xfcller") + data[after:])


def terminals():
    """No control character of a disc gets into what is said of it, also where pydicom says it."""
    def plain(what, text):
        same(f"{what}: {text!r}", text.isprintable())
    (room / "red.dcm").write_bytes(red_image())
    disc = dicomdir.FileSet.build([room / "red.dcm"]).write(room / "re\x1b[31md")
    image = next(iter(disc))
    for action, wanted in ("error", "UnicodeWarning"), ("always", "none"):
        with warnings.catch_warnings(record=True) as said:
            warnings.simplefilter(action)
            _text._warned.clear()
            kind, words = fault_of(lambda: image.PatientName)
            same(f"{action}: text", kind, wanted)
            for number, function in enumerate((image.load, disc.patients[0].dataset,
                                               lambda: disc.find(load=True, ManufacturerModelName="X"))):
                same(f"{action}: {number}", fault_of(function)[0], "none")
        plain(action, words + "".join(str(one.message) for one in said))
    same("said once", len(said), 1)
    patient_id, odd = element(0x00100020, b"LO", b"P1"), element(0x00101010, b"Z\x1b", b"1")
    Path(image.path).write_bytes(red_image().replace(patient_id, patient_id + odd))
    kind, words = fault_of(disc.find, load=True, PatientAge="1")
    same("pydicom raises", kind, "NotImplementedError")
    plain("pydicom", words)
    other = dicomdir.FileSet(disc.data.replace(patient_id, element(0x00100020, b"LO", b"\x1bc")), disc.path)
    for what in other.records, other, [str(one) for one in other.check()], dicomdir.merge([disc], "D").images:
        plain("repr", repr(what))
    plain("a fault", fault_of(dicomdir.read, disc.path + "/none")[1])


def paths_stay_below():
    """A File ID that leads elsewhere has no path."""
    data = (room / "../examples.DICOMDIR").read_bytes()
    name = b"PT000001\\ST000001\\SE000001\\IM000001"
    climbing = b"..\\..\\..\\..\\..\\..\\..\\..\\etc\\passwd"
    for other in (climbing, b"/ETC/PASSWD", b"A\\\\B", b"A\\.\\B", b"A\0B", b"A\xffB"):
        disc = dicomdir.FileSet(data.replace(name, other.ljust(len(name))), str(room))
        image = disc.records[-1]
        same(f"{other!r}: path", image.path, None)
        same(f"{other!r}: check", [one.kind for one in disc.check()], ["BADID"])
        try:
            image.read()
            same(f"{other!r}: read", False)
        except dicomdir.Fault as fault:
            same(f"{other!r}: read", fault.status, 92)


def texts():
    """Character sets, with pydicom and without."""
    same("ISO_IR 100", _text.text_of("Müller".encode("latin-1"), b"ISO_IR 100"), "Müller")
    same("ISO_IR 192", _text.text_of("Wang^王".encode(), b"ISO_IR 192"), "Wang^王")
    japanese = b"Yamada^Tarou=\x1b$B;3ED\x1b(B^\x1b$BB@O:\x1b(B"
    same("ISO 2022 IR 87", _text.text_of(japanese, b"\\ISO 2022 IR 87"), "Yamada^Tarou=山田^太郎")
    same("no such set", _text.text_of(b"\xe9", b"NO SUCH SET"), "é")
    there, _text._pydicom = _text._pydicom, lambda: None
    with warnings.catch_warnings(record=True) as said:
        warnings.simplefilter("always")
        same("alone: Latin-1", _text.text_of(b"M\xfcller", b"ISO_IR 100"), "Müller")
        same("alone: UTF-8", _text.text_of("王".encode(), b"ISO_IR 192"), "王")
        same("alone: padding", _text.text_of("王".encode(), b" ISO_IR 192 "), "王")
        same("alone: ASCII", _text.text_of(b"A", b"ISO_IR 144"), "A")
        same("alone: nothing said", len(said), 0)
        same("alone: as Latin-1", _text.text_of(b"\xb8", b"ISO_IR 144"), "¸")
        _text.text_of(b"\xb9", b"ISO_IR 144")
        same("alone: said once", [one.category for one in said], [UnicodeWarning])
    _text._pydicom = there
    waits = "import sys, dicomdir; sys.exit(not {'pydicom', 'logging'}.isdisjoint(sys.modules))"
    same("pydicom is imported when a value needs it", subprocess.run([sys.executable, "-c", waits]).returncode, 0)


def prints():
    """`python -m dicomdir`: a line for each record, and statuses."""
    def main(*words):
        ran = subprocess.run([sys.executable, "-m", "dicomdir", *map(str, words)], capture_output=True, check=False)
        return ran.returncode, ran.stdout.decode().splitlines(), ran.stderr.decode()
    folder = sorted(made.iterdir())[0]
    status, lines, _ = main(folder)
    same("lines", (status, len(lines)), (0, len(dicomdir.read(folder).records)))
    status, lines, errors = main(room / "none")
    same("no folder", (status, lines, errors), (1, [], f"FAULT {room}/none: 92 Absent\n"))
    same("no words", main()[0], 2)
    (room / "bad").mkdir()
    (room / "bad/DICOMDIR").write_bytes(b"x" * 200)
    same("no directory", main(room / "bad")[::2], (1, f"FAULT {room}/bad: 51 File 21 NotPart10\n"))
    with open("/dev/full", "w") as full:
        ran = subprocess.run([sys.executable, "-m", "dicomdir", folder], stdout=full, stderr=subprocess.PIPE,
                             check=False)
    same("a full disc", (ran.returncode, ran.stderr.decode()),
         (1, "error: the output can't be written: No space left on device\n"))


def imports():
    """Where the processor, the machine or the library does not serve, there is an ImportError with a sentence."""
    script = """
import builtins, io, sys, platform
real = builtins.open
def instead(path, *words, **names):
    return io.StringIO("flags\\t: fpu sse2 pni\\n") if path == "/proc/cpuinfo" else real(path, *words, **names)
builtins.open = instead
if len(sys.argv) > 1: platform.machine = lambda: sys.argv[1]
import dicomdir
"""
    lacking = "this one lacks cx16, lahf_lm, popcnt, sse4_1, sse4_2, ssse3"
    for words, wanted in (([], lacking), (["riscv64"], "needs Linux on x86-64 or aarch64")):
        ran = subprocess.run([sys.executable, "-c", script, *words], capture_output=True, check=False)
        last = ran.stderr.decode().splitlines()[-1]
        same("an older processor", (last.startswith("ImportError: dicomdir needs "), wanted in last), (True, True))


def calls():
    """What the library answers never leads beyond its room."""
    class Answers:
        """A library that gives the answers that it is made with."""
        def __init__(self, status, size):
            self.status, self.size = status, size

        def dicomdir_list(self, *words):
            words[-1]._obj.text = self.size
            return self.status
    there = _calls.library
    for status, size in ((0, 1 << 40), (1, 10)):
        _calls.library = Answers(status, size)
        try:
            dicomdir.listing(b"")
            same("more than there is room for", False)
        except SystemError:
            same("more than there is room for", True)
    _calls.library = there
    for bad in (lambda: _bytes.merge([], "a"), lambda: _bytes.merge([], "", "01"), lambda: _bytes.merge([], "é")):
        try:
            bad()
            same("a bad ID", False)
        except dicomdir.Fault as fault:
            same("a bad ID", fault.status in (71, 72))
    same("nothing", len(dicomdir.FileSet(_bytes.merge([]).directory)), 0)
    try:
        dicomdir.listing(b"")
    except dicomdir.Fault as fault:
        again = pickle.loads(pickle.dumps(fault))
        same("a fault again", (str(again), again.status, again.within), ("51 File 21 NotPart10", 51, 21))
    data = (room / "../examples.DICOMDIR").read_bytes()
    for kind in (bytearray, memoryview):
        same("other bytes", dicomdir.listing(kind(data)), dicomdir.listing(data))


def threads():
    """Eight threads read at once."""
    data, found = (room / "../examples.DICOMDIR").read_bytes(), []
    wanted = dicomdir.listing(data)
    def work():
        found.append(all(dicomdir.listing(data) == wanted and len(dicomdir.FileSet(data)) == 1 for _ in range(100)))
    all_threads = [threading.Thread(target=work) for _ in range(8)]
    for one in all_threads:
        one.start()
    for one in all_threads:
        one.join()
    same("threads", found, [True] * 8)


for test in (beside_pydicom, tree, discs, known_files, arguments, lengths, memory, small_records, terminals,
             paths_stay_below, texts, prints, imports, calls, threads):
    test()
print(f"package: {passed} answers are as wanted")
