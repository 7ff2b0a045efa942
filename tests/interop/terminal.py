#!/usr/bin/python3
"""Runs a program whose two outputs are one terminal, and compares what stands there at the end.

    terminal.py INPUT WANTED --shows SOURCES PROGRAM WORD..
    terminal.py INPUT WANTED --quiet PROGRAM WORD..

The program reads the file INPUT, and WANTED has the lines that must stand on the terminal. With --quiet it has got
these lines alone. Else it must have shown progress of that many sources and one, where it took two seconds or more.
That is in one line of at most 39 columns, and at most ten times a second. The status is 1 where something is not as
wanted.
"""
import os
import pty
import re
import sys
import time

PROGRESS = re.compile(r"\b(?:reading|copying|storing) (\d+) of (\d+)")
COLUMNS, IN_A_SECOND = 39, 10


def run(input_path, words):
    """What a terminal gets of a program, its status, and the seconds that it took."""
    begun = time.monotonic()
    child, terminal = pty.fork()
    if child == 0:
        os.dup2(os.open(input_path, os.O_RDONLY), 0)
        os.execv(words[0], words)
    got = b""
    while True:
        try:
            got += os.read(terminal, 4096)
        except OSError:
            break
    status = os.waitstatus_to_exitcode(os.waitpid(child, 0)[1])
    return got.decode(), status, time.monotonic() - begun


def standing(got):
    """The lines that stand on a terminal that got this."""
    lines, column = [""], 0
    for part in re.findall(r"\x1b\[K|\r|\n|[^\x1b\r\n]+|\x1b", got):
        line = lines[-1]
        if part == "\r":
            column = 0
        elif part == "\n":
            lines.append("")
        elif part == "\x1b[K":
            lines[-1] = line[:column]
        else:
            lines[-1] = line[:column] + part + line[column + len(part) :]
            column += len(part)
    return "\n".join(line.rstrip() for line in lines)


def faults_of_progress(got, of, seconds):
    """What is not as wanted of the progress of this number of sources."""
    lines = [part for part in re.split(r"[\r\n]", got) if PROGRESS.search(part)]
    counts = [tuple(map(int, found)) for found in PROGRESS.findall(got)]
    if seconds >= 2 and ("reading", of) not in {(line.split()[0], int(PROGRESS.search(line)[2])) for line in lines}:
        yield f"no line says that it reads {of} sources, in {seconds:.1f} seconds"
    if any(done > all_of_them for done, all_of_them in counts):
        yield "more is done than there is"
    if any(len(line.replace("\x1b[K", "")) > COLUMNS for line in lines):
        yield "a line is too long"
    if len(lines) > IN_A_SECOND * seconds + 1:
        yield f"{len(lines)} lines in {seconds:.1f} seconds"


def main():
    input_path, wanted_path, mode, *words = sys.argv[1:]
    of = int(words.pop(0)) + 1 if mode == "--shows" else None
    with open(wanted_path, encoding="utf-8") as file:
        wanted = file.read()
    got, status, seconds = run(input_path, words)
    faults = [] if status == 0 else [f"status {status}"]
    if standing(got) != wanted:
        faults.append(f"{standing(got)!r} stands there, and not {wanted!r}")
    if mode == "--quiet" and got != wanted.replace("\n", "\r\n"):
        faults.append("something was shown that is gone")
    if of is not None:
        faults += faults_of_progress(got, of, seconds)
    if not faults:
        print(f"a terminal: {len(PROGRESS.findall(got))} lines of progress, gone at the end")
    for fault in faults:
        print(f"tests/interop/terminal.py: {fault}", file=sys.stderr)
    sys.exit(1 if faults else 0)


main()
