#!/usr/bin/python3
"""Tries the page in a browser.

    cases.py ENGINE PAGE PROGRAM FOLDER [CASE..]

FOLDER has what tests/web/run has made: discs, files and hostile directories. Each case prints a line. The status is 1
where something is not as wanted, which is said.
"""
import signal
import sys

import checking
import making
import refusing
import seeing
import steps
from engines import ENGINES, Chromium

CASES = {
    "first": seeing.try_first,
    "damaged": checking.try_damaged,
    "names": seeing.try_names,
    "writers": checking.try_other_writers,
    "make": making.try_make,
    "memory": refusing.try_memory,
    "network": refusing.try_network,
    "unread": checking.try_unread,
    "odd": checking.try_odd,
    "huge": refusing.try_huge,
    "hostile": refusing.try_hostile,
    "random": making.try_random,
    "large": checking.try_large,
    "keys": seeing.try_keys,
    "sizes": seeing.try_sizes,
    "print": seeing.try_print,
    "zip64": making.try_zip64,
    "lacking": refusing.try_lacking,
    "burnt": checking.try_burnt,
}
# What is tried in the other engines.
FEW = ("first", "damaged", "odd", "names", "writers", "make", "memory", "hostile", "random", "print", "network")


def main():
    # A browser that was begun is ended, too.
    signal.signal(signal.SIGTERM, lambda *_: sys.exit("cases.py was ended"))
    kind = ENGINES[sys.argv[1]]
    cases = sys.argv[5:] or [name for name in (CASES if kind is Chromium else FEW)
                             if name != "burnt" or (steps.top / "mounted").exists()]
    engine = kind()
    try:
        print(f"{engine.name}: {engine.execute('return navigator.userAgent')}")
        for name in cases:
            engine.open(steps.page)
            CASES[name](engine)
    finally:
        engine.close()
    sys.exit(bool(steps.failed))


if __name__ == "__main__":
    main()
