#!/usr/bin/python3
"""Runs the program under Node beside the rules of tests/faults.

    refused.py golden|calls|memory|kills PROGRAM EXAMPLE FOLDER

With golden it prints what each command of the file tests/faults/golden says. With calls each call of a few commands
fails, and tests/faults/calls.py says what has to come of that. With memory these commands get from too little memory on
to enough. With kills they are killed (SIGKILL) at each call. PROGRAM starts refusing.mjs. All happens in FOLDER, which
is new. The status is 1 where a run is not as it has to be.
"""
import collections
import itertools
import os
import pathlib
import re
import resource
import signal
import sys

sys.path.insert(0, str(pathlib.Path(__file__).resolve().parents[1] / "faults"))
import calls
import refused
import rooms

# Node takes more memory than the program.
rooms.LIMITS = {resource.RLIMIT_CORE: 0}
rooms.SECONDS = 60
FEW = ("index of three images and a text", "merge of two sets by hard links", "check of two images and what they say")
# Each call fails in one way, and alone: tests/faults/run tries all, with the program.
ERRORS = {**{name: ("EIO",) for name in calls.ERRORS}, "create": ("ENOSPC",), "link": ("EXDEV",), "statx": ("EACCES",)}
# It is loaded before each program, which changes nothing. The host itself refuses.
LIBRARY = re.search(r"/\S+/libc\.so\.6", pathlib.Path("/proc/self/maps").read_text("ascii"))[0]


def tell_golden(program, example, folder):
    """Prints each command, its status and both its outputs."""
    room = rooms.Room(program, LIBRARY, example, folder)
    for command in rooms.COMMANDS:
        status = room.run(command).status
        print(f"$ dicomdir {command.words}\n{rooms.text_of(room.out)}{rooms.text_of(room.err)}status {status}\n")
    return 0


def try_pages(room, case):
    """Runs a command with more memory each time, until it does what it does undisturbed. Gives what is wrong."""
    wrong, count = [], 0
    # Those that it begins with are there.
    for pages in itertools.count(case.right.allocations):
        run = room.run(case.command, REFUSE_PAGES=str(pages))
        if run.is_as(case.right):
            print(f"{case.command.name}: {count} runs have too little memory, and {pages} pages of 64 KiB are enough")
            return wrong
        count += 1
        if run.status != 1 or "91 Memory" not in run.err and not run.err.startswith("FAULT OUT"):
            wrong.append(f"{case.command.name}, {pages} pages: {run.said()}")
        wrong += [f"{case.command.name}, {pages} pages: {found}" for found in rooms.harm(case, run)
                  if found != "nothing was refused"]


def try_kills(room, case):
    """Kills a command at each of its calls. Gives what is wrong."""
    wrong, counts = [], collections.Counter()
    for call in case.right.calls:
        counts[call.name] += 1
        run = room.run(case.command, REFUSE_CALL=f"{call.name} {counts[call.name]} KILL")
        # A kill has no line, and a directory that it cuts is named by none.
        found = [line for line in rooms.harm(case, run) if line.endswith(("of the file-set", "has to be", "changed"))
                 or line == "the directory is whole, and the rest is not"]
        found += [] if run.status == -signal.SIGKILL else [f"it ends with {run.status}"]
        wrong += [f"{case.command.name}, killed at {call.name} {counts[call.name]}: {line}" for line in found]
    print(f"{case.command.name}: killed at each of {len(case.right.calls)} calls")
    return wrong


def try_few(trial, program, example, folder):
    """Answers the status."""
    room = rooms.Room(program, LIBRARY, example, folder)
    return refused.tell_wrong([line for command in rooms.COMMANDS if command.name in FEW
                               for line in trial(room, room.learn(command)) + room.touched()])


def main(part, *words):
    words = [os.path.abspath(word) for word in words]
    if part == "golden":
        return tell_golden(*words)
    if part != "calls":
        return try_few({"memory": try_pages, "kills": try_kills}[part], *words)
    calls.ERRORS = ERRORS
    all_tasks = calls.tasks
    calls.tasks = lambda case: (task for task in all_tasks(case) if not task[-1])
    refused.COMMANDS = [command for command in rooms.COMMANDS if command.name in FEW]
    return refused.main("calls", words[0], LIBRARY, *words[1:])


if __name__ == "__main__":
    sys.exit(main(*sys.argv[1:]))
