"""The steps that cases have in common, and what compares. The words are those of cases.py."""
import base64
import pathlib
import sys

import wanted

page, program, top = (pathlib.Path(it).resolve() for it in sys.argv[2:5])
failed = 0


def same(what, wanted_, found):
    global failed
    if wanted_ == found:
        return
    failed += 1
    print(f"NOT AS WANTED: {what}")
    if isinstance(wanted_, list) and isinstance(found, list):
        print(f"  {len(wanted_)} wanted, {len(found)} found")
        differing = [pair for pair in zip(wanted_, found) if pair[0] != pair[1]][:3]
        for one, other in differing:
            print(f"  < {one!r:.600}\n  > {other!r:.600}")
    else:
        print(f"  < {wanted_!r:.800}\n  > {found!r:.800}")


OPENED = "await testing.until(() => testing.isShown('check') || testing.isShown('refused'), 'the list');"
# The folder is read by the browser first.
CHOSEN = "await testing.until(() => !testing.isShown('first') || testing.isShown('refused'), 'the folder');"
# All rows: each file's name has this in it.
ALL_ROWS = "testing.search(given[0]); const rows = testing.rows(); testing.search(''); return rows"
CHECKED = """
testing.click('check');
await testing.until(() => testing.isShown('result'), 'the result');
return [testing.text('verdict'), document.getElementById('result').className,
  [...document.querySelectorAll('#unnamed li')].map((it) => it.textContent).sort()];
"""
SAVED = "testing.saved = []; testing.click(given[0]); return testing.base64(testing.saved[0])"


def encoded(path):
    """The bytes of a file, as testing.file takes them."""
    return base64.b64encode(path.read_bytes()).decode()


def open_disc(engine, disc):
    engine.folder("choose", disc)
    engine.run(CHOSEN + OPENED)


def leave(engine):
    """Goes back to where a disc is chosen."""
    engine.run("testing.click('another')")


def see(engine, disc, findings=None, word="im0"):
    """The rows of a disc are those of the program's list."""
    status, lines, _ = wanted.listed(program, disc)
    same(f"{disc.name}: list", 0, status)
    same(f"{disc.name}: rows", wanted.rows(wanted.objects(lines), findings), engine.run(ALL_ROWS, word))
    return lines


def see_findings(engine, disc, word="im0"):
    """What was checked is saved with the lines of the program, and stands in the rows."""
    _, lines, _ = wanted.checked(program, disc)
    same(f"{disc.name}: the check as saved", lines, saved(engine, "save-check"))
    see(engine, disc, [it for it in wanted.objects(lines) if it["line"] in wanted.STATES], word)


def saved(engine, button):
    return base64.b64decode(engine.run(SAVED, button))


def try_disc(engine, disc, said, word="im0", is_short=False):
    """The page shows what list and check print of a disc, and saves the same lines. Said are the result of the check,
    its look, and the files that no record names."""
    open_disc(engine, disc)
    if not is_short:
        lines = see(engine, disc, word=word)
        same(f"{disc.name}: the list as saved", lines, saved(engine, "save-list"))
    verdict, look, *unnamed = said
    same(f"{disc.name}: what check says", [verdict, f"banner {look}", unnamed], engine.run(CHECKED))
    see_findings(engine, disc, word)
    leave(engine)
