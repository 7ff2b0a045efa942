"""Discs that are checked: damaged, odd and large ones, those of other writers, and the page's own."""
import shutil
import time

import wanted
from engines import Chromium
from steps import (CHECKED, OPENED, encoded, leave, open_disc, page, program, same, saved, see, see_findings, top,
                   try_disc)


def try_damaged(engine):
    """Each finding, and files that no record names."""
    try_disc(engine, top / "damaged", ["This disc is not whole: 4 of 12 files are not as recorded.", "bad",
                                       "damaged/AUTORUN.INF", "damaged/VIEWER/RUN.EXE"])
    open_disc(engine, top / "damaged")
    engine.run(CHECKED)
    kinds = engine.run("return [...document.querySelectorAll('#result [data-kind]')].map((it) => it.textContent)")
    same("kinds of findings", ["1 changed", "1 mislabelled", "2 missing", "4 not as recorded"], sorted(kinds))
    engine.run("document.querySelector('[data-kind=BAD]').click()")
    same("all that is not as recorded", "4 records found", engine.run("return testing.text('matches')"))
    engine.run("document.querySelector('[data-kind=DIFFERS]').click()")
    found = engine.run("return testing.rows().filter((row) => row[6] === 'changed').length")
    same("rows that are changed alone", [1, "1 record found"],
         [found, engine.run("return testing.text('matches')")])
    leave(engine)
    print(f"{engine.name}: findings of a damaged disc, and files that no record names")


# Chooses directories, each as the file of a path.
GIVE = "testing.give('choose', given[0].map(([path, data]) => testing.file(path, data)));"
SETS = "return [...document.querySelectorAll('#sets button')].map((it) => it.textContent)"


def try_odd(engine):
    """Discs of no files, with a record that is not in use, and more than one; a disc that is left while it is
    checked."""
    try_disc(engine, top / "none", ["This directory names no files: there is nothing to check.", "note"], word="")
    open_disc(engine, top / "unused")
    same("a record that is not in use", ["This disc is whole: all 2 files are there and unchanged.", "banner good",
                                         ["unused/PT000001/ST000001/SE000001/IM000002"]], engine.run(CHECKED))
    same("its file", "1 file that no record in use names",
         engine.run("return document.querySelector('#unnamed summary').textContent"))
    discs = [[f"two/{name}/DICOMDIR", encoded(top / name / "DICOMDIR")] for name in ("damaged", "readme")]
    engine.run(GIVE, discs)
    same("two discs", ["two/damaged", "two/readme"], engine.run(SETS))
    engine.run("document.querySelectorAll('#sets button')[1].click();" + OPENED)
    same("the second", "DISC1", engine.run("return testing.text('disc-name')"))
    # The first disc's end must not show on the second.
    engine.run("testing.click('check');" + GIVE + OPENED + "await new Promise((go) => setTimeout(go, 500))",
               [["D/DICOMDIR", discs[0][1]]])
    same("a disc that is left", ["TEST_1", False, False], engine.run(
        "return [testing.text('disc-name'), testing.isShown('result'), testing.isShown('progress')]"))
    leave(engine)
    print(f"{engine.name}: discs of no files, with a record that is not in use, several, and one that is left")


def try_unread(engine):
    """A file that is there when the disc is chosen, and can't be read later."""
    disc = top / "unread"
    shutil.copytree(top / "readme", disc)
    open_disc(engine, disc)
    (disc / "PT000001/ST000001/SE000001/IM000002").unlink()
    same("an unreadable file", "This disc is not whole: 1 of 3 files is not as recorded.", engine.run(CHECKED)[0])
    same("an unreadable file's line",
         b'{"line":"UNREADABLE","file":"PT000001\\\\ST000001\\\\SE000001\\\\IM000002"}\n', saved(engine, "save-check"))
    leave(engine)
    print(f"{engine.name}: a file that can't be read")


PAUSES = """
testing.pauses = [];
const see = (list) => testing.pauses.push(...list.getEntries().map((it) => Math.round(it.duration)));
new PerformanceObserver(see).observe({ entryTypes: ['longtask'] });
"""
# The result, and what was said halfway.
PROGRESS = """
const all = [];
testing.click('check');
await testing.until(() => {
  all.push(document.getElementById('progress-text').textContent);
  return testing.isShown('result');
}, 'the result', 1700);
return [testing.text('verdict'), all[all.length >> 1]];
"""
STOPPED = """
testing.click('check');
await testing.until(() => testing.isShown('progress'), 'a check');
testing.click('stop');
await testing.until(() => testing.isShown('result'), 'the end');
return testing.text('verdict');
"""


def try_large(engine):
    """A disc of 20,000 images with damages, without long pauses."""
    disc = top / "large"
    began = time.time()
    engine.run(PAUSES if isinstance(engine, Chromium) else "")
    open_disc(engine, disc)
    took = time.time() - began
    pauses = engine.run("return testing.pauses || []")
    # Chromium itself stands still for a second or two where so many files are chosen, and longer beside other work.
    same("large: long pauses", [], [pause for pause in pauses if pause > max(4000, 500 * took)])
    lines = see(engine, disc)
    same("large: the list as saved", lines, saved(engine, "save-list"))
    began = time.time()
    verdict, halfway = engine.run(PROGRESS)
    same("large: what check says", "This disc is not whole: 3 of 20,000 files are not as recorded.", verdict)
    see_findings(engine, disc)
    same("large: stopped", "Stopped: not all files were checked.", engine.run(STOPPED))
    leave(engine)
    print(f"{engine.name}: 20,000 images: opened in {took:.1f} s, checked in {time.time() - began:.1f} s "
          f"('{halfway}'), longest pauses {sorted(pauses)[-3:]} ms")


def try_other_writers(engine):
    """Sets of other writers; that of gdcmgendir is refused, in words that say what to do."""
    for name in ("dcmmkdir", "pydicom", "packaged"):
        disc = top / name
        if not disc.exists():
            continue
        _, lines, _ = wanted.checked(program, disc)
        states = {it["line"] for it in wanted.objects(lines)} & set(wanted.STATES)
        open_disc(engine, disc)
        see(engine, disc, word=" ")
        engine.run(CHECKED)
        same(f"{name}: the check as saved", lines, saved(engine, "save-check"))
        same(f"{name}: look", "banner bad" if states - {"NODIGEST"} else "banner note",
             engine.run("return document.getElementById('result').className"))
        leave(engine)
    if (top / "gdcmgendir").exists():
        open_disc(engine, top / "gdcmgendir")
        said = engine.run("return testing.text('refused')")
        for part in ("56 LastRoot", "its files are as good as before: index the images anew",
                     "Make a new DICOMDIR of these files"):
            same(f"gdcmgendir: {part}", True, part in said)
        engine.run("document.querySelector('#refused button').click();"
                   "await testing.until(() => testing.isShown('plan'), 'the plan')")
        same("gdcmgendir: what can be made", True,
             "image" in engine.run("return document.querySelector('#plan h2').textContent"))
        engine.run("testing.click('tab-see'); testing.click('another')")
    print(f"{engine.name}: sets of other writers")


def try_burnt(engine):
    """The page on the disc itself."""
    mounted = top / "mounted"
    engine.open(mounted / "index.htm")
    try_disc(engine, mounted, ["This disc is whole: all 3 files are there and unchanged.", "good", "mounted/index.htm"])
    engine.open(page)
    print(f"{engine.name}: the page on a burnt disc, which it checks")
