"""Runs rattle check on a copy of a crate, and says what it came to."""

import os
import re
import shutil
import subprocess
import tempfile
from dataclasses import dataclass
from pathlib import Path

from wrong_bodies.repository import PARTS

REFUSED, BY_NAMES, PROVED, BAD_EDIT = "REFUSED", "BY NAMES", "PROVED", "BAD EDIT"
LIMIT, NOT_TRIED = "LIMIT", "NOT TRIED"
# The last line of a check in which antt came to its end, of functions and of a crate.
ENDED = re.compile(r"only=\d+ proved=\d+|logic=not-proved")
# The line of a function whose own proof fails, and not only that of one that it calls.
OPEN = re.compile(r"(?:fn|impl|struct|enum) (\S+): (?:not proved|no proof)(?!: it calls [^;]*, which (?:is|are) not proved$)")
UNSURE = re.compile(r"(?:fn|impl|struct|enum) (\S+): could not tell")
GOALS = re.compile(r"`search` did not prove (`[^;]*`)")
# A part of a proof file that the checker refuses.
PART = re.compile(r"(?:note: )?(?:\./)?(proofs(?:/\S+)?)/[\w+-]+\.antt:\d+:\d+: error: (?:(`[^`]*`): )?(.*)")
NAMES = re.compile(r"has no field|is not in scope|has no `|was not admitted")
# Words that rattle has for a limit of its own, and not for lack of a machine's memory.
LIMITS = re.compile(
    r"antt ran out of (stack|the (steps|memory) that the check of one declaration may (take|use))"
    r"|(outgrew the memory limit|stopped at the step limit) \(")


@dataclass(frozen=True)
class Verdict:
    """What the try of an edit came to, by what, and the seconds of processor time that it took."""

    kind: str
    text: str
    seconds: float = 0.0


@dataclass(frozen=True)
class Run:
    """A run of rattle check: its status, the lines that it printed, its processor time and its memory."""

    status: int
    lines: list
    seconds: float
    megabytes: int

    def has_ended(self):
        return self.status == 1 and bool(ENDED.match(self.lines[-1]))

    def opened(self):
        """The lines of the functions whose own proofs fail, by their names."""
        return {it[1]: line for line in self.lines for it in [OPEN.match(line)] if it}


class Checker:
    """Checks copies of one crate. What a check keeps is taken by the next one."""

    def __init__(self, repository, kit, name, kept):
        self.name, self.folder = name, repository.folder(name)
        self.words = [kit.rattle, "check", *repository.words(name, kit), "--jobs", "1", "--incremental", kept]

    def run(self, texts, flags=(), without=()):
        """Checks the crate with these texts in place of its own, without the proofs in these folders of proofs/."""
        with tempfile.TemporaryDirectory(prefix="wrong-body-") as room:
            for part in PARTS:
                if (self.folder / part).is_dir():
                    shutil.copytree(self.folder / part, Path(room) / part)
            for path, text in texts.items():
                (Path(room) / path).write_text(text, encoding="utf-8")
            for it in without:
                leave_out(Path(room) / "proofs" / it)
            with subprocess.Popen([*self.words, *flags], cwd=room, stdin=subprocess.DEVNULL, stdout=subprocess.PIPE,
                                  stderr=subprocess.STDOUT, text=True, errors="replace") as process:
                said = process.stdout.read()
                _, status, used = os.wait4(process.pid, 0)
                process.returncode = os.waitstatus_to_exitcode(status)
        lines = said.rstrip("\n").split("\n")
        return Run(process.returncode, lines, used.ru_utime + used.ru_stime, used.ru_maxrss // 1024)

    def run_functions(self, change, without=()):
        """Checks the functions of a change, each by the first of its paths that rattle knows, and gives their names."""
        ways, seconds = [list(it) for it in change.functions], 0.0
        while True:
            run = self.run(change.texts, [word for it in ways for word in ("--only", it[0])], without)
            seconds += run.seconds
            unknown = [it for it in ways if len(it) > 1 and any(f"`{it[0]}`" in line for line in run.lines)]
            if run.status != 2 or not unknown:
                names = [f"{self.name}::{it[0]}" for it in ways]
                return Run(run.status, run.lines, seconds, run.megabytes), names
            unknown[0].pop(0)


def leave_out(folder):
    """Empties the proof of a function. rattle calls that not proved, and takes no time for it."""
    folder.mkdir(parents=True, exist_ok=True)
    for name in ("Answers.antt", "Invariants.antt"):
        (folder / name).unlink(missing_ok=True)
    (folder / "Proof.antt").write_text("-- It is left out.\n", encoding="utf-8")


def unread(run, texts):
    """The line by which antt cannot read a text of src/ or specs/, or an edited one. An edit that only makes a
    statement false reads well."""
    for line in run.lines:
        at = re.match(r"(?:\./)?(\S+?):\d+:\d+: error: (?:(`[^`]*`): )?(.*)", line)
        if at and (at[1] in texts or at[1].startswith(("src/", "specs/"))):
            said = re.sub(r"`[^`]*`", "", at[3])
            words = r"is not in scope|has no field|is no name|operand is missing|expected the end|cannot continue"
            if not at[2] or re.search(words, said):
                return line
    return ""


def is_of(name, functions):
    """Is what rattle calls by this name one of these functions, or a part of one, as a closure is?"""
    return any(name == it or name.startswith((f"{it}::", f"{it}.")) for it in functions)


def refusal(run, functions):
    """By which goals these functions' own proofs fail: REFUSED, or BY NAMES where none of their goals is refused. None
    where the proofs of these functions do not fail. Where no functions are given, all count, and so do lemmas."""
    opened = {name: line for name, line in run.opened().items() if not functions or is_of(name, functions)}
    lines, names = list(opened.values()), []
    goals = [it[1] for line in lines for it in [GOALS.search(line)] if it]
    for part in filter(None, map(PART.match, run.lines)):
        if not functions or any(is_proof_of(part[1], it) for it in opened):
            if NAMES.search(part[3]):
                names.append(part[0])
            elif part[2]:
                goals.append(part[2])
    if goals:
        return Verdict(REFUSED, f"by {', '.join(dict.fromkeys(goals))}")
    if names or lines and all("no proof: expected" in it for it in lines):
        return Verdict(BY_NAMES, (names or lines)[0][:200])
    return Verdict(REFUSED, lines[0][:200]) if lines else None


def own_refusal(run, functions, texts):
    """The verdict of a check without the proofs of other functions: REFUSED where goals of these functions are refused,
    None for all else."""
    if not run.has_ended() or unread(run, texts):
        return None
    verdict = refusal(run, functions)
    return verdict if verdict and verdict.text.startswith("by `") else None


def is_proof_of(folder, function):
    """Is the folder the one of a function's proof, or of a cycle of calls beside it?"""
    own = f"proofs/{function.partition('::')[2].replace('::', '/')}"
    beside, is_cycle, _ = folder.partition("/+")
    return own.startswith(f"{beside}/") if is_cycle else folder == own


def verdict_of(run, texts, functions):
    """What the check of these functions came to, or of the whole crate, where there are none."""
    bad = unread(run, texts)
    if bad and run.status == 1:
        return Verdict(BAD_EDIT, f"the prover cannot read the edited text: {bad[:200]}")
    if run.has_ended():
        unsure = next((it for it in run.lines if UNSURE.match(it)), "")
        other = next(iter(run.opened().values()), unsure)
        left = Verdict(LIMIT if unsure else NOT_TRIED, f"no proof of it fails, but: {other[:200]}")
        return refusal(run, functions) or left
    if run.status == 0:
        return Verdict(PROVED, run.lines[-1][:100])
    limit = next((it for it in run.lines if LIMITS.search(it)), "")
    if run.status == 3 and limit:
        return Verdict(LIMIT, limit[:200])
    error = next((it for it in run.lines if re.search(r"\berror\[[\w-]+\]", it)), "")
    if run.status == 1 and error:
        return Verdict(BAD_EDIT, f"it did not reach the prover: {error[:200]}")
    return Verdict(NOT_TRIED, f"status {run.status}: {' / '.join(run.lines[-3:])[:300]}")
