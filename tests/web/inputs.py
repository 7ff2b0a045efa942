#!/usr/bin/python3
"""Makes what the tests of the page open, by the program.

    inputs.py PROGRAM FOLDER
"""
import pathlib
import random
import shutil
import subprocess
import sys

top = pathlib.Path(__file__).resolve().parents[2]
sys.path.insert(0, str(top / "bench"))
from dicom import CT_CLASS, EXPLICIT, FIRST, directory, element, head, record, text

NAMES = ("DOE^JANE", "ROE^RICHARD", "MÜLLER^JÜRGEN^^DR", "YAMADA^TARO=山田^太郎=やまだ^たろう", "O'BRIEN^AOIFE",
         "Иванова^Анна", "אברהם^דוד", "LI^MEI")
# Names that would do harm as markup, or steer the line.
HOSTILE = ("<img src=x onerror=harmed=1>^<b>A", "</bdi></script><script>harmed=1</script>", "\u202eEVIL^txt.exe\u2066",
           "A\u2028B\u200f\u061cC", "&lt;b&gt;&amp;", "'\"><svg onload=harmed=1>", "a" * 300, "constructor^__proto__")


def image(patient, name, study, series, number, **more):
    """A CT image of these, with `size` bytes of pixels."""
    uid = f"1.2.826.{study}.{series}.{number}".encode()
    modality, words = more.get("modality", b"CT"), more.get("words", "CT Thorax").encode()
    date = f"2024{1 + study % 12:02d}01".encode() if study > 1 else b"20240101"
    return head(CT_CLASS, uid, EXPLICIT) + b"".join([
        text(8, 0x05, b"CS", b"ISO_IR 192"), text(8, 0x16, b"UI", CT_CLASS), text(8, 0x18, b"UI", uid),
        text(8, 0x20, b"DA", date), text(8, 0x30, b"TM", b"101500"),
        text(8, 0x50, b"SH", f"A{study}".encode()), text(8, 0x60, b"CS", modality), text(8, 0x1030, b"LO", words),
        text(0x10, 0x10, b"PN", name.encode()), text(0x10, 0x20, b"LO", patient),
        text(0x20, 0x0D, b"UI", f"1.2.826.{study}".encode()),
        text(0x20, 0x0E, b"UI", f"1.2.826.{study}.{series}".encode()),
        text(0x20, 0x10, b"SH", str(study).encode()), text(0x20, 0x11, b"IS", str(series).encode()),
        text(0x20, 0x13, b"IS", str(number).encode()),
        element(0x7FE0, 0x10, b"OW", random.Random(number).randbytes(more.get("size", 64)))])


class Maker:
    def __init__(self, program, out):
        self.program, self.out = program, out

    def folder(self, name):
        made = self.out / name
        made.mkdir(parents=True, exist_ok=True)
        return made

    def index(self, name, sources, *options):
        names = b"\0".join(str(path).encode() for path in sources)
        subprocess.run([self.program, "index", "--files0-from", "-", *options, str(self.out / name)],
                       input=names, check=True, stdout=subprocess.DEVNULL)
        return self.out / name

    def disc(self, name, patients, studies, series, images, names=NAMES, **more):
        """A set of so many of each."""
        room = self.folder(f"images/{name}")
        paths, study = [], 0
        for patient in range(patients):
            id_, name_ = f"P{patient:04d}".encode(), names[patient % len(names)]
            for _ in range(studies):
                study += 1
                for one in range(1, series + 1):
                    for number in range(1, images + 1):
                        path = room / f"{len(paths):06d}"
                        path.write_bytes(image(id_, name_, study, one, number, **more))
                        paths.append(path)
        return self.index(name, paths, "--id", "TEST_1")

    def damage(self, disc, missing, changed, mislabelled):
        """Removes files, changes one, and has the record of one name another instance."""
        for path in missing:
            (disc / path).unlink()
        data = (disc / changed).read_bytes()
        (disc / changed).write_bytes(data[:-1] + bytes([data[-1] ^ 1]))
        data = (disc / "DICOMDIR").read_bytes()
        at = data.index(element(4, 0x1511, b"UI", b"")[:6], data.index(mislabelled.replace("/", "\\").encode()))
        (disc / "DICOMDIR").write_bytes(data[:at + 8] + b"2" + data[at + 9:])

    def discs(self):
        examples = sorted((top / "examples").glob("*.dcm"))
        self.index("readme", examples, "--id", "DISC1")
        self.damage(self.disc("damaged", 2, 1, 2, 3),
                    ["PT000001/ST000001/SE000001/IM000002", "PT000002/ST000001/SE000002/IM000001"],
                    "PT000001/ST000001/SE000002/IM000003", "PT000002/ST000001/SE000001/IM000001")
        (self.out / "damaged/AUTORUN.INF").write_text("[autorun]\n")
        self.folder("damaged/VIEWER").joinpath("RUN.EXE").write_bytes(b"MZ")
        self.damage(self.disc("large", 100, 2, 5, 20), ["PT000050/ST000001/SE000003/IM000007"],
                    "PT000099/ST000002/SE000005/IM000020", "PT000001/ST000001/SE000001/IM000002")
        self.disc("names", len(HOSTILE), 1, 1, 1, names=HOSTILE,
                  words="<img src=x onerror=harmed=1>\u202e<script>harmed=1</script>")
        broken = self.folder("broken")
        (broken / "DICOMDIR").write_bytes((self.out / "readme/DICOMDIR").read_bytes()[:700])

    def odd(self):
        """Directories of no records, with one that is not in use, of zeros, and with a value of 64 MiB."""
        (self.folder("none") / "DICOMDIR").write_bytes(directory(b"", 0, 0))
        shutil.copytree(self.out / "readme", self.out / "unused")
        data = (self.out / "readme/DICOMDIR").read_bytes()
        flag = data.rindex(element(4, 0x1410, b"US", b"\xff\xff"), 0, data.index(b"IM000002"))
        (self.out / "unused/DICOMDIR").write_bytes(data[:flag + 8] + b"\0\0" + data[flag + 10:])
        with open(self.folder("zeros") / "DICOMDIR", "wb") as zeros:
            zeros.truncate(100_000_000)
        value = (text(0x10, 0x10, b"PN", b"DOE^JANE") + text(0x10, 0x20, b"LO", b"P1") +
                 element(0x42, 0x11, b"OB", bytes(64 << 20)))
        (self.folder("value") / "DICOMDIR").write_bytes(directory(record(0, 0, value), FIRST, FIRST))

    def sources(self):
        """Image files to make sets of: some are none, one has a twin, one patient has two names."""
        room = self.folder("sources")
        for path in sorted((top / "examples").glob("*.dcm")):
            (room / path.name).write_bytes(path.read_bytes())
        (room / "README.md").write_bytes((top / "README.md").read_bytes())
        data = (top / "examples/ct1.dcm").read_bytes()
        (room / "twin.dcm").write_bytes(data.replace(b"101500", b"101501"))
        (room / "-dash.dcm").write_bytes(image(b"P9", "DASH^A", 900, 1, 1))
        (room / "long").write_bytes(image(b"P9", "DASH^B", 900, 1, 2, size=5_000_000))
        room = self.folder("conflict")
        (room / "one.dcm").write_bytes(data)
        (room / "two.dcm").write_bytes((top / "examples/ct2.dcm").read_bytes().replace(b"P1", b"P3"))
        room = self.folder("random")
        chance = random.Random(3)
        for at in range(40):
            made = image(f"P{chance.randint(1, 4)}".encode(), chance.choice(NAMES), chance.randint(1, 3),
                         chance.randint(1, 3), chance.randint(1, 4), modality=chance.choice([b"CT", b"MR", b"US"]),
                         size=chance.randint(0, 300) * 2)
            (room / f"f{at}").write_bytes(made)
        (room / "cut").write_bytes((room / "f1").read_bytes()[:400])

    def hostile(self, count):
        """Directories of bytes that were changed, cut, or laid out to harm."""
        room, chance = self.folder("hostile"), random.Random(11)
        bases = [(self.out / name / "DICOMDIR").read_bytes() for name in ("readme", "damaged", "names")]
        for at in range(count):
            if at % 10 == 0:
                data = self.forged(chance)
            else:
                data = bytearray(chance.choice(bases))
                for _ in range(chance.choice([1, 1, 2, 5, 40])):
                    byte = chance.choice([0, 1, 0x0A, 0x1B, 0x5C, 0x7F, 0xFF, chance.randrange(256)])
                    begin = 128 if chance.random() < 0.1 else 320
                    data[chance.randrange(begin, len(data))] = byte
                if chance.random() < 0.1:
                    data = data[:chance.randrange(len(data))]
            folder = room / f"{at:04d}"
            folder.mkdir()
            (folder / "DICOMDIR").write_bytes(data)

    def forged(self, chance):
        """A directory of records with any types and values, some of which lead in circles."""
        kinds = [b"PATIENT", b"STUDY", b"SERIES", b"IMAGE", b"constructor", b"__proto__", b"<b>X</b>", b"", b"PRIVATE"]
        mores = []
        for _ in range(chance.randint(1, 60)):
            junk = bytes(chance.choice(b"<>&\"'\\^=\x1b\x00\x0aAZ\xff\xe2\x80\xae")
                         for _ in range(chance.choice([0, 3, 40, 1000])))
            kind, charset = chance.choice(kinds), chance.choice([b"ISO_IR 192", b"ISO_IR 100", b"X"])
            mores.append((kind, text(4, 0x1500, b"CS", junk[:16]) + text(8, 5, b"CS", charset) +
                          text(0x10, 0x10, b"PN", junk) + text(0x10, 0x20, b"LO", junk[:64])))
        sizes = [len(record(0, 0, more, kind)) for kind, more in mores]
        places = [FIRST + sum(sizes[:at]) for at in range(len(sizes))]

        def following(at):
            return chance.choice(places) if chance.random() < 0.1 else places[at + 1] if at + 1 < len(places) else 0

        def lower():
            return chance.choice(places) if chance.random() < 0.02 else 0
        items = b"".join(record(following(at), lower(), more, kind) for at, (kind, more) in enumerate(mores))
        return directory(items, places[0], places[-1])


if __name__ == "__main__":
    maker = Maker(sys.argv[1], pathlib.Path(sys.argv[2]))
    maker.discs()
    maker.odd()
    maker.sources()
    maker.hostile(2000)
