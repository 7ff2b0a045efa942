#!/usr/bin/python3
"""Runs each command under limits of its memory (ulimit -v) and of its stack (ulimit -s): a run that a signal or the
loader ends must have made nothing.

    limits.py PROGRAM EXAMPLE FOLDER PAGE

All happens in FOLDER, which is new, in as many processes as JOBS says, else as there are processors. PAGE is
docs/RELIABILITY.md. The status is 1 where a run is not as it has to be, or where a limit on that page is off by more
than a tenth.
"""
import concurrent.futures
import multiprocessing
import os
import pathlib
import re
import resource
import subprocess
import sys

from rooms import COMMANDS, Command, Room, begin, tree

LOADER = 127
# The limits are tried in steps of these many kilobytes, from so far below the first under which the program starts
# to so far above it.
STEP = {"-v": 8, "-s": 4}
BELOW = 256
ABOVE = {"-v": 768, "-s": 160}
KINDS = {"-v": resource.RLIMIT_AS, "-s": resource.RLIMIT_STACK}
# What is on the page.
ROWS = {"-v": r"\| `-v` below some ([\d,]+) kB, or ([\d,]+) kB \|", "-s": r"\| `-s` below some ([\d,]+) kB \|"}


def status_under(program, command, name, kilobytes):
    """The status of a run under the limit, which is negative where a signal has ended it."""
    limit = kilobytes * 1024
    return subprocess.run([program] + command.words.split(), stdin=subprocess.DEVNULL, stdout=subprocess.DEVNULL,
                          stderr=subprocess.DEVNULL, env={}, timeout=60, check=False,
                          preexec_fn=lambda: resource.setrlimit(KINDS[name], (limit, limit))).returncode


def is_ended(status):
    """Has a signal or the loader ended the run?"""
    return status < 0 or status == LOADER


def first_start(program, name):
    """The least limit under which the program starts."""
    low, high = 0, 1 << 16
    while high - low > STEP[name]:
        middle = (low + high) // 2
        if is_ended(status_under(program, Command("", "--version"), name, middle)):
            low = middle
        else:
            high = middle
    return high


def limits_from(start, name):
    """The limits that are tried."""
    return range(max(STEP[name], start - BELOW), start + ABOVE[name], STEP[name])


def sweep(task):
    """Runs a command under all limits of a kind. Gives the greatest under which a signal, and under which the loader,
    ended it, and what is wrong."""
    program, example, folder, number, name, start = task
    place = os.path.join(folder, f"room-{os.getpid()}")
    if os.path.isdir(place):
        os.chdir(place)
    else:
        Room(program, "", example, place)
    command, ended, wrong = COMMANDS[number], {True: 0, False: 0}, []
    begin(command)
    before = tree("OUT")
    for kilobytes in limits_from(start, name):
        begin(command)
        status = status_under(program, command, name, kilobytes)
        if is_ended(status):
            ended[status < 0] = kilobytes
            if tree("OUT") != before:
                wrong.append(f"{command.words} | {name} {kilobytes}: it has made something, and ends with {status}")
    return ended[True], ended[False], wrong


def page_limits(page, name):
    """The limits that the page names."""
    found = re.search(ROWS[name], pathlib.Path(page).read_text(encoding="utf-8"))
    return [int(number.replace(",", "")) for number in found.groups()] if found else []


def main(program, example, folder, page):
    """Sweeps all, and answers the status."""
    program, example, folder, page = (os.path.abspath(word) for word in (program, example, folder, page))
    os.mkdir(folder)
    jobs = int(os.environ.get("JOBS") or os.cpu_count())
    wrong = []
    for name in KINDS:
        start = first_start(program, name)
        tasks = [(program, example, folder, number, name, start) for number in range(len(COMMANDS))]
        with concurrent.futures.ProcessPoolExecutor(jobs, multiprocessing.get_context("fork")) as pool:
            results = list(pool.map(sweep, tasks))
        by_signal, by_loader = (max(result[part] for result in results) for part in (0, 1))
        limits = [limit + STEP[name] for limit in (by_loader, by_signal) if limit > 0]
        wrong += [line for result in results for line in result[2]]
        named = page_limits(page, name)
        if len(named) != len(limits) or any(abs(one - other) * 10 > one for one, other in zip(limits, named)):
            wrong.append(f"{name}: {page} names {named} for {limits}")
        print(f"limits: ulimit {name} over {len(tasks)} commands, {len(tasks) * len(limits_from(start, name))} runs: "
              f"the loader or a signal ends some below {' and '.join(map(str, limits))} kB")
    for line in wrong[:20]:
        print(f"limits.py: {line}", file=sys.stderr)
    return 1 if wrong else 0


if __name__ == "__main__":
    sys.exit(main(*sys.argv[1:]))
