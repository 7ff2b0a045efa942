"""Sets that the page makes of image files, as a zip and into a folder."""
import base64
import io
import pathlib
import random
import tempfile
import zipfile

import wanted
from steps import encoded, page, program, same, top

MAKE = """
testing.click('tab-make');
document.getElementById('set-id').value = given[1];
document.getElementById('set-uid').value = given[2];
testing.give('images', given[0].map(([path, data]) => testing.file(path, data)));
await testing.until(() => testing.isShown('plan'), 'the plan');
const plan = testing.text('plan');
const button = document.getElementById('save-zip');
if (!button) return [plan, null];
testing.saved = [];
button.click();
await testing.until(() => testing.saved.length || !document.getElementById('save-zip'), 'the zip');
if (!testing.saved.length) return [testing.text('plan'), null];
return [plan, await testing.base64(testing.saved[0]), testing.name];
"""


def files_of(folder):
    return {path.relative_to(folder).as_posix(): path.read_bytes()
            for path in sorted(folder.rglob("*")) if path.is_file()}


def given(sources):
    return [[path.name, encoded(path)] for path in sources]


def make(engine, sources, id_="", uid=""):
    """Has the page make a set of these files as a zip, and the program; both have to do the same."""
    plan, packed, *name = engine.run(MAKE, given(sources), id_, uid)
    with tempfile.TemporaryDirectory(dir=top) as room:
        out = pathlib.Path(room, "OUT")
        options = [*(["--id", id_] if id_ else []), *(["--uid", uid] if uid else [])]
        status, lines, errors = wanted.answer(program, "index", "--json", *options, "--", str(out),
                                              *[path.name for path in sources], cwd=sources[0].parent)
        if status != 0:
            same("a refusal", True, wanted.objects(errors)[0]["fault"]["words"] in plan)
            return plan
        done = wanted.objects(lines)[-1]
        if not done["instances"]:
            same("nothing to make", None, packed)
            return plan
        made = zipfile.ZipFile(io.BytesIO(base64.b64decode(packed)))
        same("the zip is whole", None, made.testzip())
        same("the set in the zip", files_of(out), {it: made.read(it) for it in made.namelist()})
        same("the zip's name", [f"{id_ or 'FILESET'}.zip"], name)
        for line in wanted.objects(lines):
            if line["line"] == "SKIP":
                same("a skipped file is named", True, line["fault"]["words"] in plan)
                same("its class is named", True, line["fault"].get("class_name", "") in plan)
    return plan


# Saves into a folder, as the File System Access API gives it, that has what Windows puts onto a stick.
SAVE_FOLDER = """
document.getElementById('set-id').value = '';
document.getElementById('set-uid').value = '';
const written = testing.written = {};
const writable = (path, parts = []) => ({
  write: async (bytes) => { parts.push(bytes); },
  close: async () => { written[path] = new Blob(parts); },
});
const folder = (path) => ({
  async * keys() { yield * Object.keys(written); },
  getDirectoryHandle: async (name) => folder(path + name + '/'),
  getFileHandle: async (name) => ({ createWritable: async () => writable(path + name) }),
});
window.showDirectoryPicker = async () => folder('');
written['System Volume Information'] = new Blob();
testing.give('images', given[0].map(([path, data]) => testing.file(path, data)));
await testing.until(() => document.getElementById('save-folder'), 'the plan');
testing.click('save-folder');
await testing.until(() => testing.text('making').startsWith('Saved'), 'the folder');
delete written['System Volume Information'];
const all = {};
for (const [path, it] of Object.entries(written)) all[path] = await testing.base64(it);
return all;
"""


def save_folder(engine, sources):
    """Has the page save a set of these files into a folder, and then refuse to do it again."""
    found = engine.run(SAVE_FOLDER, given(sources))
    with tempfile.TemporaryDirectory(dir=top) as room:
        out = pathlib.Path(room, "OUT")
        wanted.answer(program, "index", str(out), *map(str, sources))
        same("the folder", files_of(out), {path: base64.b64decode(data) for path, data in sorted(found.items())})
    engine.run("testing.click('save-folder');"
               "await testing.until(() => testing.text('making').includes('not empty'), 'words')")


def try_make(engine):
    """Sets of image files, as a zip, and into a folder."""
    sources = sorted((top / "sources").iterdir())
    plan = make(engine, sources, "DISC1", "2.25.1")
    same("what is skipped stands first", True, "31 File 21 NotPart10" in plan and "left out" in plan)
    make(engine, sorted((top / "conflict").iterdir()))
    # What a search finds may have one name in two folders.
    plan = engine.run(MAKE, [["IM1", encoded(top / f"random/f{at}")] for at in (1, 2)], "", "")[0]
    same("two files of one name", "2 images", plan[:8])
    # One that can't be: the UID is none.
    said = engine.run(MAKE, [["a.dcm", encoded(sources[0])]], "", "1.02")[0]
    same("a UID that is none", True, "71 BadUid" in said or "02" in said)
    save_folder(engine, sources)
    print(f"{engine.name}: a set as a zip and into a folder, skipped files, notes, a conflict and options")


def try_random(engine):
    """Sets of random choices of image files."""
    sources = sorted((top / "random").iterdir())
    chance = random.Random(7)
    count = 200 if engine.name == "Chromium" else 5
    for at in range(count):
        size = chance.randint(1, 6)
        make(engine, chance.choices(sources, k=size) if at % 2 else chance.sample(sources, size),
             chance.choice(["", "DISC1"]))
    print(f"{engine.name}: {count} random sets of images have the bytes of the program's")


MANY_FILES = """
const zip = new Zip();
for (let at = 0; at < 66000; at++) {
  zip.create(at, `F${at}`);
  zip.write(at, new Uint8Array([at & 255]));
  zip.close(at);
}
return testing.base64(zip.blob());
"""
FAR = """
const zip = new Zip();
zip.size = 0x123456789;
zip.create(0, 'FAR');
zip.write(0, new Uint8Array([1, 2]));
zip.close(0);
return testing.base64(zip.blob());
"""


def try_zip64(engine):
    """A zip of more files than 65,535, and one whose directory stands beyond 4 GiB, as zip64 says."""
    source = page.parent / "zip.js"
    if not source.exists():
        source = pathlib.Path(__file__).resolve().parents[2] / "web/zip.js"
    packed = engine.run(source.read_text() + MANY_FILES)
    made = zipfile.ZipFile(io.BytesIO(base64.b64decode(packed)))
    same("66,000 files", (66000, b"\x07"), (len(made.namelist()), made.read("F7")))
    tail = engine.run(source.read_text() + FAR)
    with tempfile.TemporaryFile(dir=top) as sparse:
        sparse.seek(0x123456789)
        sparse.write(base64.b64decode(tail))
        same("a file beyond 4 GiB", b"\x01\x02", zipfile.ZipFile(sparse).read("FAR"))
    print(f"{engine.name}: zip64")
