#!/usr/bin/python3
"""Runs the program with allocations or calls of the system refused, and compares each run with the undisturbed one.

    refused.py allocations|calls|golden PROGRAM LIBRARY EXAMPLE FOLDER [NAME]

With golden it only prints what each command says undisturbed, as the file golden has it. Where NAME is given, only the
command of that name is run.
LIBRARY is refuse.c, compiled. All happens in FOLDER, which is new, in as many processes as JOBS says, else as there
are processors. A line for each run is left in FOLDER/runs. The status is 1 where a run is not as it has to be; such
runs are named on the error output.
"""
import concurrent.futures
import multiprocessing
import os
import sys

import calls
import allocations
from rooms import COMMANDS, DIRECTORY, Room, text_of

PARTS = {"allocations": allocations, "calls": calls}
# It ends once this number of things are wrong.
ENOUGH = 20


class Worker:
    """What a process has: the cases, which it takes over, and a room of its own."""

    cases = []
    room = None

    @classmethod
    def begin(cls, *words):
        """Makes the room."""
        *program, folder = words
        cls.room = Room(*program, os.path.join(folder, f"room-{os.getpid()}"))

    @classmethod
    def do(cls, part, number, task):
        """Does a task of a case."""
        result = PARTS[part].try_one(cls.room, cls.cases[number], task)
        result.wrong.extend(cls.room.touched())
        return result


def are_linked(run):
    """Are all images hard links?"""
    files = {path for path, content in run.left.items() if content is not None}
    return files - {DIRECTORY} == set(run.links)


def learn(words):
    """Runs each command undisturbed."""
    *program, folder = words
    room = Room(*program, os.path.join(folder, "room"))
    for command in COMMANDS:
        case = room.learn(command)
        if case.right.allocations == 0 or not case.right.calls:
            sys.exit("refused.py: the library tells nothing of the program")
        if "--link" in command.words and not are_linked(case.right):
            sys.exit("refused.py: the program has copied an image that it can link")
        Worker.cases.append(case)


def tell_golden(words):
    """Prints each command, its status and both its outputs."""
    *program, folder = words
    room = Room(*program, os.path.join(folder, "room"))
    for command in COMMANDS:
        status = room.run(command).status
        print(f"$ dicomdir {command.words}\n{text_of(room.out)}{text_of(room.err)}status {status}\n")


def tell_wrong(wrong):
    """Tells what is wrong, and answers the status."""
    for line in wrong:
        print(f"refused.py: {line}", file=sys.stderr)
    return 1 if wrong else 0


def main(part, *words):
    """Does a part, and answers the status."""
    if len(words) == 5:
        *words, name = words
        COMMANDS[:] = [command for command in COMMANDS if command.name == name]
    words = [os.path.abspath(word) for word in words]
    os.mkdir(words[-1])
    if part == "golden":
        tell_golden(words)
        return 0
    learn(words)
    tasks = [(part, number, task) for number, case in enumerate(Worker.cases) for task in PARTS[part].tasks(case)]
    results = [(case, []) for case in Worker.cases]
    wrong = []
    jobs = int(os.environ.get("JOBS") or os.cpu_count())
    context = multiprocessing.get_context("fork")
    with concurrent.futures.ProcessPoolExecutor(jobs, context, Worker.begin, words) as pool, \
            open(os.path.join(words[-1], "runs"), "w", encoding="utf-8") as lines:
        for (_, number, task), result in zip(tasks, pool.map(Worker.do, *zip(*tasks), chunksize=8)):
            results[number][1].append((task, result))
            lines.write(result.line + "\n")
            wrong += [f"{result.line}: {found}" for found in result.wrong]
            if len(wrong) >= ENOUGH:
                pool.shutdown(cancel_futures=True)
                return tell_wrong(wrong)
    for case, results_of in results:
        PARTS[part].sum_up(case, results_of)
    wrong += PARTS[part].sum_up_all(results)
    print(f"{part}: {len(tasks)} runs, {len(wrong)} not as they have to be")
    return tell_wrong(wrong)


if __name__ == "__main__":
    sys.exit(main(*sys.argv[1:]))
