"""What the page shows of discs: rows, names, views of each size, paper, and what a keyboard reaches."""
import os
import pathlib

import wanted
from steps import ALL_ROWS, CHECKED, leave, open_disc, same, saved, see, top, try_disc

POLICY = ("default-src 'none'; script-src 'unsafe-inline' 'wasm-unsafe-eval' blob:; worker-src blob:; "
          "style-src 'unsafe-inline'; img-src data: blob:")


def try_first(engine):
    """What is seen first, and the set of README.md."""
    same("the policy", POLICY, engine.run("return document.querySelector('meta[http-equiv]').content"))
    same("the first sentence", "Choose the drive or folder of a disc to see what is on it, then click “Check all "
         "files” to learn whether each file is there and unchanged.",
         engine.run("return document.querySelector('#first .lead').innerText"))
    try_disc(engine, top / "readme", ["This disc is whole: all 3 files are there and unchanged.", "good"])
    open_disc(engine, top / "readme")
    same("what is below the first record", "1 record, 2 files",
         engine.run("return [...document.querySelectorAll('#details dd')].at(-1).innerText"))
    engine.run("testing.search('roe ct')")
    same("a search", [["Patient ROE, JANE · ID P2", "true"], ["Study 2024-01-15 10:15 · study 1", "true"],
                      ["Series CT · series 1", "false"]],
         [[row[4], row[3]] for row in engine.run("return testing.rows()")])
    same("a search's count", "1 record found", engine.run("return testing.text('matches')"))
    leave(engine)
    print(f"{engine.name}: README's set: rows, check, saved lines and search")


def try_names(engine):
    """No text of a disc becomes markup, or steers direction."""
    open_disc(engine, top / "names")
    lines = see(engine, top / "names")
    texts = [row[4] for row in engine.run(ALL_ROWS, "im0")]
    assert any("<img src=x" in text for text in texts) and not any(wanted.STEERING.search(text) for text in texts)
    engine.run("document.querySelectorAll('#tree [role=treeitem]')[0].click()")
    same("markup of names", [0, None], engine.run(
        "const markup = '#tree img, #tree b, #details img, #details b, #tree script';"
        "return [document.querySelectorAll(markup).length, window.harmed || null]"))
    same("each text stands in a bdi", True, engine.run(
        "return [...document.querySelectorAll('#tree .title')].every((it) => "
        "[...it.querySelectorAll('.first, .more')].every((part) => part.localName === 'bdi'))"))
    same("names: the list as saved", lines, saved(engine, "save-list"))
    leave(engine)
    print(f"{engine.name}: hostile names are text alone")


def keys_and_rows():
    """Keys to press, and of the row with the focus then its role, first text, and whether it is open."""
    from selenium.webdriver.common.keys import Keys
    return (
        ([], ["treeitem", "DOE, JANE", "true"]), ([Keys.DOWN], ["treeitem", "2024-01-01 10:15", "true"]),
        ([Keys.LEFT], ["treeitem", "2024-01-01 10:15", "false"]), ([Keys.LEFT], ["treeitem", "DOE, JANE", "true"]),
        ([Keys.RIGHT, Keys.RIGHT, Keys.RIGHT], ["treeitem", "CT", "true"]),
        ([Keys.RIGHT], ["treeitem", "Image 1", None]), ([Keys.END], ["treeitem", "Image 3", None]),
        ([Keys.HOME], ["treeitem", "DOE, JANE", "true"]), (["r"], ["treeitem", "ROE, RICHARD", "true"]),
        ([Keys.ENTER], ["treeitem", "ROE, RICHARD", "false"]), ([Keys.SPACE], ["treeitem", "ROE, RICHARD", "true"]),
        ([Keys.PAGE_UP], ["treeitem", "DOE, JANE", "true"]))


FOCUS = """
const it = document.activeElement;
return [it.getAttribute('role'), it.querySelector('.first')?.textContent, it.getAttribute('aria-expanded')];
"""
# What takes the focus or stands for a part of the page, and has no name.
NAMELESS = """
return [...document.querySelectorAll('button, input, progress, [role=tree], summary, aside')].filter((it) =>
  it.offsetParent && !(it.textContent.trim() || it.labels?.length || it.getAttribute('aria-label'))
).map((it) => it.outerHTML.slice(0, 80));
"""


def try_keys(engine):
    """The tree by keyboard, and what a screen reader is given."""
    from selenium.webdriver.common.keys import Keys
    open_disc(engine, top / "damaged")
    engine.run("document.querySelector('#tree [tabindex=\"0\"]').focus()")
    for keys, found in keys_and_rows():
        if keys:
            engine.press(*keys)
        same(f"after {[key if key.isprintable() and key < '~' else hex(ord(key)) for key in keys]}", found,
             engine.run(FOCUS))
    same("each control has a name", [], engine.run(NAMELESS))
    tree, row = (engine.driver.find_element("css selector", it) for it in ("#tree", "#tree .row"))
    same("roles", ["tree", "treeitem"], [tree.aria_role, row.aria_role])
    same("the name of a row", True, "DOE, JANE" in row.accessible_name)
    engine.run("document.getElementById('tab-see').focus()")
    engine.press(Keys.RIGHT)
    same("tabs by keyboard", [True, "tab-make"],
         engine.run("return [testing.isShown('make'), document.activeElement.id]"))
    engine.press(Keys.LEFT)
    leave(engine)
    print(f"{engine.name}: the tree and the tabs by keyboard, roles and names")


def show(engine, view):
    """Goes from one view to the next."""
    if view == "disc":
        open_disc(engine, top / "damaged")
    elif view == "checked":
        engine.run(CHECKED)
    elif view == "make":
        engine.run("testing.click('tab-make')")
    elif view == "plan":
        engine.folder("folder", top / "sources")
        engine.run("await testing.until(() => testing.isShown('plan'), 'the plan')")
    elif view == "refused":
        engine.run("testing.click('tab-see'); testing.click('another')")
        engine.folder("choose", top / "broken")
        engine.run("await testing.until(() => testing.isShown('refused'), 'a refusal')")


MOVING = """
return [...document.querySelectorAll('*')].filter((it) => {
  const style = getComputedStyle(it);
  return style.animationName !== 'none' || style.transitionDuration !== '0s';
}).map((it) => it.id);
"""


def try_sizes(engine):
    """Nothing stands out of a narrow page, in text of any size and both colours; pictures are left where asked for."""
    shots = os.environ.get("SHOTS")
    for width, height, scheme in ((1200, 900, "light"), (1200, 900, "dark"), (360, 740, "light"), (360, 740, "dark"),
                                  (640, 400, "light")):
        engine.metrics(width, height)
        engine.colours(scheme)
        for view in ("first", "disc", "checked", "make", "plan", "refused"):
            show(engine, view)
            same(f"{view} at {width}", True, engine.run("return document.documentElement.scrollWidth <= innerWidth"))
            if shots:
                engine.run("scrollTo(0, 0)")
                engine.picture(pathlib.Path(shots, f"{view}-{width}-{scheme}.png"))
        engine.run("testing.click('tab-see'); testing.click('another')")
    engine.metrics(1200, 900)
    same("no motion", [], engine.run(MOVING))
    print(f"{engine.name}: each view at 1,200, 640 (as at 200 %) and 360 pixels, light and dark")


def try_print(engine):
    """What is printed has all rows that are open, and the result."""
    open_disc(engine, top / "damaged")
    engine.run(CHECKED)
    engine.run("window.dispatchEvent(new Event('beforeprint'))")
    text = engine.run("return document.getElementById('paper').textContent")
    same("the rest of the page is left out", True, engine.run("return document.body.className === 'on-paper'"))
    same("what is printed", [True] * 4, [it in text for it in (
        "This disc is not whole: 4 of 12 files are not as recorded.", "DOE, JANE", "mislabelled",
        "2 files that no record names")])
    engine.run("window.dispatchEvent(new Event('afterprint')); testing.click('another')")
    print(f"{engine.name}: what is printed")
