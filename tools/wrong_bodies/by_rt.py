"""Has rt try edits, as the gate of a copy of the repository, where it takes what it has proved before."""

import re
import shutil
import subprocess
import tempfile
from pathlib import Path

from wrong_bodies.checks import BAD_EDIT, BY_NAMES, LIMIT, NOT_TRIED, PROVED, REFUSED, Verdict

LINE = re.compile(r"rt: must-fail (\S+)/(\S+)\.edit: (.*)")
# By which words of rt an edit came to what.
WORDS = (
    ("refused, as it must be (only because a proof file names", BY_NAMES),
    ("refused, as it must be (only by a limit", LIMIT),
    ("refused, as it must be", REFUSED),
    ("NOT REFUSED", PROVED),
    ("BAD EDIT", BAD_EDIT),
    ("NOT TRIED", NOT_TRIED),
)


def lay_out(repository, crates, room):
    """Copies the crates, and those below them, to a room, with the edits of these crates in must-fail/."""
    needed = {*crates, *(it for name in crates for it in repository.below(name))}
    listed = [it for it in repository.listed if it in needed]
    for name in listed:
        to = room / "crates" / name
        shutil.copytree(repository.folder(name), to, ignore=shutil.ignore_patterns("out", "must-fail", "wrong-bodies"))
        for folder in ("must-fail", "wrong-bodies"):
            if name in crates and (repository.folder(name) / folder).is_dir():
                shutil.copytree(repository.folder(name) / folder, to / "must-fail", dirs_exist_ok=True)
    lines = (repository.top / "crates.txt").read_text(encoding="utf-8").splitlines()
    words = {it: it.partition(":")[0].split() for it in lines}
    (room / "crates.txt").write_text("".join(f"{it}\n" for it in lines if words[it] and words[it][0] in needed))
    shutil.copy(repository.top / "HANDLES", room)


def verdicts(said):
    """What rt says of each edit, by crate and name."""
    found = {}
    for it in map(LINE.match, said.splitlines()):
        if it:
            kind = next((kind for words, kind in WORDS if it[3].startswith(words)), NOT_TRIED)
            found[f"{it[1]}/{it[2]}"] = Verdict(kind, it[3][:200])
    return found


def try_by_rt(repository, kit, edits):
    """What rt says of each of these edits."""
    crates = list(dict.fromkeys(it.crate for it in edits))
    with tempfile.TemporaryDirectory(prefix="wrong-bodies-rt-") as room:
        lay_out(repository, crates, Path(room))
        ran = subprocess.run([kit.rt, "ci"], cwd=room, stdin=subprocess.DEVNULL, capture_output=True, text=True,
                             errors="replace", check=False)
    found = verdicts(ran.stdout)
    last = f"status {ran.returncode}: " + " / ".join((ran.stdout + ran.stderr).strip().splitlines()[-3:])[:300]
    return {it: found.get(it.label, Verdict(NOT_TRIED, f"rt says nothing of it, {last}")) for it in edits}
