"""Tries the edits of crates, by checks of the functions that they change."""

import dataclasses
import hashlib
import json
import os
import tempfile
import time
from concurrent.futures import ThreadPoolExecutor
from pathlib import Path

from wrong_bodies.checks import (BAD_EDIT, LIMIT, NOT_TRIED, PROVED, REFUSED, Checker, Verdict, own_refusal,
                                 verdict_of)
from wrong_bodies.edits import BadEdit, change_of, sources_of
from wrong_bodies.source import proofs_of

# What is not used for this number of seconds goes from the store.
UNUSED = 90 * 24 * 3600


class Kept:
    """The edits that were refused, by the checksums of all that a refusal rests on."""

    def __init__(self, repository, kit):
        cache = os.environ.get("XDG_CACHE_HOME") or os.path.expanduser("~/.cache")
        self.folder = Path(os.environ.get("WRONG_BODIES_KEPT") or f"{cache}/dicomdir-wrong-bodies")
        self.folder.mkdir(mode=0o700, parents=True, exist_ok=True)
        self.repository, self.kit, self.crates = repository, kit.digest(), {}
        for it in self.folder.iterdir():
            if it.stat().st_mtime < time.time() - UNUSED:
                it.unlink(missing_ok=True)

    def place(self, edit):
        if edit.crate not in self.crates:
            self.crates[edit.crate] = self.repository.digest(edit.crate)
        parts = (self.kit, self.crates[edit.crate], edit.path.name, edit.text)
        return self.folder / hashlib.sha256(repr(parts).encode()).hexdigest()

    def get(self, edit):
        try:
            found = json.loads(self.place(edit).read_text(encoding="utf-8"))
            os.utime(self.place(edit))
            return Verdict(REFUSED, found["text"])
        except (OSError, ValueError, KeyError, TypeError):
            return None

    def keep(self, edit, verdict):
        if verdict.kind == REFUSED:
            with tempfile.NamedTemporaryFile("w", dir=self.folder, delete=False, encoding="utf-8") as it:
                json.dump({"edit": edit.label, "text": verdict.text}, it)
            os.replace(it.name, self.place(edit))


class CrateTrial:
    """The edits of one crate, tried one check after the other."""

    def __init__(self, checker, tell):
        self.checker, self.tell = checker, tell

    def try_all(self, edits):
        """Tries at once those that change different functions, and alone what is not plainly refused so."""
        waiting, alone = list(edits), []
        while waiting:
            groups, waiting = self.groups(waiting)
            if len(groups) == 1:
                alone += [edit for edit, _ in groups]
            else:
                alone += self.try_groups(groups)
        for edit in alone:
            self.tell(edit, self.try_alone(edit))

    def groups(self, edits):
        """Those edits that change different functions, each with its change over the ones before it, and the others. An
        edit of a constant is left alone, since the contract of any function may name that."""
        groups, others, texts, proofs = [], [], {}, set()
        for edit in edits:
            try:
                change = change_of(edit, self.checker.folder, texts)
            except BadEdit:
                change = None
            if not change or change.of_constant or proofs & change.proofs:
                others.append(edit)
                continue
            texts, proofs = change.texts, proofs | change.proofs
            groups.append((edit, change))
        return (groups, others) if groups else ([(edits[0], None)], edits[1:])

    def try_groups(self, groups):
        """Tries edits at once, and gives those that are not refused so."""
        joined = dataclasses.replace(
            groups[-1][1], functions=tuple(dict.fromkeys(it for _, change in groups for it in change.functions)),
            proofs=frozenset().union(*(change.proofs for _, change in groups)))
        run, names = self.check_own(joined)
        known, alone = dict(zip(joined.functions, names)), []
        for edit, change in groups:
            verdict = own_refusal(run, [known[it] for it in change.functions], joined.texts)
            if verdict:
                self.tell(edit, dataclasses.replace(verdict, seconds=run.seconds / len(groups)))
            else:
                alone.append(edit)
        return alone

    def check_own(self, change):
        """Checks the functions of a change without the proofs of any other, on which goals of theirs do not rest."""
        proofs = proofs_of({**sources_of(self.checker.folder), **change.texts})
        others = [folder for it, folders in proofs.items() if it not in change.proofs for folder in folders]
        return self.checker.run_functions(change, others)

    def try_alone(self, edit):
        """Tries an edit by the functions that it changes. A constant may stand in any contract, so where its users are
        proved, the whole crate is checked."""
        try:
            change = change_of(edit, self.checker.folder)
        except BadEdit as error:
            return Verdict(BAD_EDIT, str(error))
        run, names = self.check_own(change)
        verdict, seconds = own_refusal(run, names, change.texts), run.seconds
        if not verdict:
            run, names = self.checker.run_functions(change)
            verdict, seconds = verdict_of(run, change.texts, names), seconds + run.seconds
        if verdict.kind == PROVED and change.of_constant:
            run = self.checker.run(change.texts)
            verdict, seconds = verdict_of(run, change.texts, ()), seconds + run.seconds
        return dataclasses.replace(verdict, seconds=seconds)


class Trial:
    """The edits of a repository's crates, several crates at once."""

    def __init__(self, repository, kit, tell):
        self.repository, self.kit, self.tell = repository, kit, tell

    def try_crate(self, name, edits, tell):
        lacking = self.repository.lacking(name)
        if lacking:
            for it in edits:
                tell(it, Verdict(NOT_TRIED, f"{lacking[0]} has no library in its out/: run rt ci first"))
            return
        with tempfile.TemporaryDirectory(prefix="wrong-bodies-") as kept:
            CrateTrial(Checker(self.repository, self.kit, name, kept), tell).try_all(edits)

    def try_all(self, edits, jobs, kept):
        """Tries edits, the largest crates first. What met a limit, or was not tried, is tried once more alone."""
        again = []

        def once(edit, verdict):
            if verdict.kind in (LIMIT, NOT_TRIED):
                again.append(edit)
                return
            self.done(edit, verdict, kept)

        by_crate = {}
        for edit in edits:
            by_crate.setdefault(edit.crate, []).append(edit)
        with ThreadPoolExecutor(jobs) as pool:
            largest = sorted(by_crate, key=lambda it: len(by_crate[it]), reverse=True)
            for it in [pool.submit(self.try_crate, name, by_crate[name], once) for name in largest]:
                it.result()
        for edit in again:
            self.try_crate(edit.crate, [edit], lambda it, verdict: self.done(it, verdict, kept))

    def done(self, edit, verdict, kept):
        kept.keep(edit, verdict)
        self.tell(edit, verdict)
