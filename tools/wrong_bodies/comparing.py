"""Compares what a check of functions says of a crate's edits with what rt says, which takes the whole crate."""

import subprocess
from pathlib import Path

from wrong_bodies.by_rt import try_by_rt
from wrong_bodies.checks import LIMIT, NOT_TRIED, REFUSED

# What rt may take for the crate that is compared, in minutes of processor time.
MOST = 10


def minutes_of(repository):
    """The minutes that the proof of each crate takes, where they were measured: tools/minutes.txt."""
    lines = (repository.top / "tools/minutes.txt").read_text(encoding="utf-8").splitlines()
    return {words[0]: float(words[1]) for words in map(str.split, lines) if words and words[0] in repository.listed}


def expected(repository, minutes, name, edits):
    """What rt takes for edits of a crate: it proves that once more, over those below, and checks it whole for each."""
    return sum(minutes.get(it, 1) for it in repository.below(name)) + minutes[name] + edits * (0.3 + minutes[name] / 10)


def chosen(repository, edits):
    """The crate to compare: by the digest of HEAD, one of those whose edits take few minutes, or None."""
    minutes, counts = minutes_of(repository), {}
    for it in edits:
        counts[it.crate] = counts.get(it.crate, 0) + 1
    crates = [it for it in sorted(counts)
              if it in minutes and expected(repository, minutes, it, counts[it]) <= MOST]
    head = subprocess.run(["git", "rev-parse", "HEAD"], cwd=repository.top, capture_output=True, text=True, check=True)
    return crates[int(head.stdout, 16) % len(crates)] if crates else None


def differences(repository, kit, edits, refused):
    """Has rt try these edits, a second time where it says nothing of one, and gives those of the refused ones that it
    does not refuse, with what it says. A limit of the prover says nothing."""
    found = try_by_rt(repository, kit, edits)
    if any(it.kind == NOT_TRIED for it in found.values()):
        found = try_by_rt(repository, kit, edits)
    return {it: found[it] for it in edits if it in refused and found[it].kind not in (REFUSED, LIMIT)}
