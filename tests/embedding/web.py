"""The ES module beside the Python package: the same cases, whose answers have to be the same as JSON.

    web.py MADE ROOM MODULE CASES

MADE has file-sets, ROOM is an empty folder, and MODULE is dicomdir.mjs. Of CASES are a fifth each: damaged directories
that are read, damaged images, file-sets that are built and merged, and files that are checked.
"""
import base64
import json
import subprocess
import sys
import warnings
from hashlib import sha256
from pathlib import Path

import dicomdir
from cases import EXAMPLES, Tally, damaged, directories, head_of, packaged_images
from crafted import EXAMPLE, directory, element, record
from dicomdir import _bytes

made, room, module, cases = Path(sys.argv[1]), Path(sys.argv[2]), Path(sys.argv[3]), int(sys.argv[4])
HERE = Path(__file__).resolve().parent
ELEMENTS = ["PatientID", "PatientName", "ReferencedFileID", 0x00041220, 0x00081140, 0x00020010]
KEYWORDS = ["PatientID", "PatientName", "StudyDate", "StudyDescription", "Modality", "SOPInstanceUID", "InstanceNumber"]
# A Specific Character Set, a value, and its text (PS3.5 annexes H to K).
TEXTS = [
    (b"", b"DOE^JOHN", "DOE^JOHN"),
    (b"ISO_IR 100", b"Buc^J\xe9r\xf4me", "Buc^Jérôme"),
    (b"ISO_IR 101", b"W\xb1\xb6", "Wąś"),
    (b"ISO_IR 144", b"\xbb\xee\xda\xe1\xd5\xdc\xd1\xe3\xe0\xd3", "Люксембург"),
    (b"ISO_IR 126", b"\xc4\xe9\xef\xed\xf5\xf3\xe9\xef\xf2", "Διονυσιος"),
    (b"ISO_IR 192", "Wang^XiaoDong=王^小东".encode(), "Wang^XiaoDong=王^小东"),
    (b"GB18030", "Wang^XiaoDong=王^小东".encode("gb18030"), "Wang^XiaoDong=王^小东"),
    (b"\\ISO 2022 IR 87", b"Yamada^Tarou=\x1b$B;3ED\x1b(B^\x1b$BB@O:\x1b(B", "Yamada^Tarou=山田^太郎"),
    (b"ISO 2022 IR 13\\ISO 2022 IR 87", b"\xd4\xcf\xc0\xde^\xc0\xdb\xb3=\x1b$B;3ED\x1b(J^\x1b$BB@O:\x1b(J",
     "ﾔﾏﾀﾞ^ﾀﾛｳ=山田^太郎"),
    (b"\\ISO 2022 IR 149", b"Hong^Gildong=\x1b$)C\xfb\xf3^\x1b$)C\xd1\xce\xd4\xd7", "Hong^Gildong=洪^吉洞"),
    (b"\\ISO 2022 IR 58", b"Zhang^XiaoDong=\x1b$)A\xd5\xc5^\x1b$)A\xd0\xa1\xb6\xab", "Zhang^XiaoDong=张^小东"),
    (b"ISO 2022 IR 100\\ISO 2022 IR 144", b"\xe9\x1b-L\xbb\xee^\xe9", "éЛю^é"),
    (b"NO SUCH SET", b"\xe9", "é"),
]


def coded(data):
    return base64.b64encode(data).decode()


def record_of(one):
    above = one.parent
    return [one.offset, one.level, one.in_use, one.record_type, list(one.file_id), one.path, above and above.offset,
            [it.row for it in one.children], [coded(one.raw(it)) for it in ELEMENTS]]


def read(data, keywords=(), keys=()):
    disc = dicomdir.FileSet(data)
    return {"front": [disc.ID, disc.UID, disc.withdrawn, disc.unreached], "listing": disc.listing(),
            "records": list(map(record_of, disc.records)), "files": [one.row for one in disc],
            "texts": [[one.get(it) for it in keywords] for one in disc.records],
            "found": [[one.row for one in disc.find(**it)] for it in keys], "roots": [one.row for one in disc.roots]}


def known(given):
    """What is known of a file, as web.mjs has it."""
    if given is None:
        return None
    if "unread" in given:
        raise OSError
    bytes_of = {name: base64.b64decode(text) for name, text in given.items()}
    return (bytes_of["digest"], bytes_of.get("head")) if "digest" in bytes_of else [*bytes_of.values()][0]


def check(data, files, options):
    given = iter(files)
    return [str(one) for one in dicomdir.FileSet(data).check(known=lambda record: known(next(given)), **options)]


def merged(made_of, notes, place):
    directory_of = dicomdir.FileSet(made_of.directory)
    return {"directory": coded(made_of.directory), "skipped": [], "names": notes.names, "repeated": notes.repeated,
            "images": [[place(it), one.offset] for it, one in zip(made_of.picks, directory_of)],
            "leftOut": [[place(file), place(kept), uid] for file, kept, uid in notes.left_out]}


def merge(sets, options):
    label = options.get("id", ""), options.get("uid", "")
    return merged(_bytes.merge(sets, *label), _bytes.notes(sets, *label), list)


def withdraw(data, uids, options):
    made_of = _bytes.withdraw(data, uids, options.get("id", ""), options.get("uid", ""))
    return merged(made_of, _bytes.notes([made_of.directory]), list)


def build(files, options):
    paths = [room / f"source{place}" for place in range(len(files))]
    for path, data in zip(paths, files):
        path.write_bytes(data)
    at = {str(path): place for place, path in enumerate(paths)}
    built = dicomdir.FileSet.build(paths, options.get("id", ""), options.get("uid", ""), options.get("strict", False))
    return {"directory": coded(built.directory), "names": built.names, "repeated": built.repeated,
            "images": [[at[path], one.offset] for path, one in built.images],
            "skipped": [[at[path], fault.words] for path, fault in built.skipped],
            "leftOut": [[at[path], at[kept], uid] for path, kept, uid in built.left_out]}


def wanted(function, *words):
    """The answer of the package, or its fault."""
    try:
        return function(*words)
    except dicomdir.Fault as fault:
        return {"fault": [fault.words, fault.status, fault.within, fault.cause, fault.at, fault.tag, fault.source]}


def reading_cases(chance, seeds):
    """All seeds, with texts and what is found by them; and damaged ones."""
    for data in seeds:
        keys = [{"PatientID": "P1", "Modality": "CT"}, {"InstanceNumber": 2}, {"StudyDate": ""}]
        yield "read", {"data": coded(data), "elements": ELEMENTS, "keywords": KEYWORDS, "keys": keys}, \
            wanted(read, data, KEYWORDS, keys)
    for _ in range(cases // 5):
        data = damaged(chance, chance.choice(seeds))
        yield "read", {"data": coded(data), "elements": ELEMENTS, "keywords": [], "keys": []}, wanted(read, data)


def text_cases():
    for charset, value, text in TEXTS:
        named = record(b"PATIENT", element(0x00080005, b"CS", charset), element(0x00100010, b"PN", value))
        data = directory([], [named])
        answer = read(data, ["PatientName"])
        answer["texts"] = [[text]]
        yield "read", {"data": coded(data), "elements": ELEMENTS, "keywords": ["PatientName"], "keys": []}, answer


def given_file(chance, data):
    how = chance.randrange(7)
    digest = coded(sha256(data).digest())
    return (None, {"unread": ""}, {"bytes": coded(data)}, {"blob": coded(data)}, {"digest": digest},
            {"digest": digest, "head": coded(head_of(data))}, {"bytes": coded(damaged(chance, data))})[how]


def checking_cases(chance, folders):
    for _ in range(cases // 5):
        disc = dicomdir.read(chance.choice(folders))
        options = {"keys": chance.random() < .7, "strict": chance.random() < .5}
        files = [given_file(chance, one.read()) for one in disc]
        yield "check", {"data": coded(disc.data), "files": files, "options": options}, \
            wanted(check, disc.data, files, options)


def making_cases(chance, own, seeds, images):
    for number in range(cases // 5):
        options = {"id": chance.choice(("", "DISC1", "bad")), "uid": chance.choice(("", "1.2.3", "x"))}
        options = options if chance.random() < .2 else {"id": "DISC1"}
        one = chance.choice(images)
        files = [damaged(chance, one[:1500], 128) + one[1500:]]
        yield "build", {"files": [{"bytes": coded(it)} for it in files], "options": options}, \
            wanted(build, files, options)
        files = [damaged(chance, it) if chance.random() < .1 else it
                 for it in chance.choices(images, k=chance.randrange(12))]
        strict = {**options, "strict": number % 4 == 0}
        kind = chance.choice(("bytes", "blob"))
        yield "build", {"files": [{kind: coded(it)} for it in files], "options": strict}, wanted(build, files, strict)
        sets = [damaged(chance, it) if chance.random() < .1 else it
                for it in chance.choices(own * 4 + seeds, k=chance.randrange(1, 4))]
        if not any("fault" in wanted(read, it) for it in sets):
            yield "merge", {"sets": list(map(coded, sets)), "options": options}, wanted(merge, sets, options)
            uids = chance.sample(["1.2.3.4.5", "1.2.3.4.6", "1.2.99", "01"], chance.randrange(3))
            yield "withdraw", {"data": coded(sets[0]), "uids": uids, "options": options}, \
                wanted(withdraw, sets[0], uids, options)


def word_cases():
    for name in ("DICOMDIR", "IM000001", "A", ""):
        yield "spellings", {"name": name}, list(_bytes.spellings(name))
    # The module opens no file.
    for status in sorted(set(dicomdir.FAULTS) - {38, 92, 93, 94, 95, 96, 97}):
        more = {"within": 27, "cause": 4, "at": 320, "tag": 0x0020000D, "source": 1}
        fault = dicomdir.Fault(status, type("Answer", (), more))
        yield "fault", {"status": status, "more": more}, fault.words


def variants(images):
    """The same UIDs with other bytes, and with other names."""
    return [it[:-1] + bytes([it[-1] ^ 1]) for it in images] + [it.replace(b"DOE^JOHN", b"ROE^JANE") for it in images]


def main():
    # pydicom warns of each character set that it does not know.
    warnings.simplefilter("ignore")
    tally = Tally("the ES module", 4)
    chance, seeds = tally.chance, directories(made)
    images = [path.read_bytes() for path in [*EXAMPLES, *packaged_images()[::8]]]
    images += [*variants(images[:3]), EXAMPLE]
    own = [EXAMPLE, *((made / name / "DICOMDIR").read_bytes() for name in ("by-index", "by-withdraw"))]
    given = [*reading_cases(chance, seeds), *text_cases(), *checking_cases(chance, sorted(made.iterdir())),
             *making_cases(chance, own, seeds, images), *word_cases()]
    (room / "cases").write_text(json.dumps([{"kind": kind, **words} for kind, words, _ in given]))
    subprocess.run(["node", HERE / "web.mjs", module, room / "cases", room / "answers"], check=True, timeout=600)
    for (kind, words, answer), found in zip(given, json.loads((room / "answers").read_text()), strict=True):
        met = f"{kind} {answer['fault'][1] if 'fault' in answer else 0}" if isinstance(answer, dict) else kind
        tally.note(met, json.loads(json.dumps(answer)) == found, str(words)[:100], answer, found)
    tally.end(15)


main()
