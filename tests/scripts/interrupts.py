"""Ends runs of dicomdir-parallel by signals, in each of their phases, looks at what is left, and goes on with what is
kept. For parallel."""
import concurrent.futures
import os
import pathlib
import pty
import random
import re
import shutil
import signal
import subprocess
import time

from beside import NAMED, PARALLEL, image, tree

# In which phase a run waits, by the beginning of a command of the program, or by a tool that is run in place of the
# system's. The list of names is read to its end, which does not come.
PHASES = {"reading": None, "cutting": "xargs", "staging": "stage", "publishing": "publish"}
# Waits where its words are of that phase.
TOOL = """#!/bin/sh
case "$0 $*" in
    */xargs*stat*) : >"$CALLS.paused"; exec sleep 600 ;;
    */rm\\ -rf\\ --\\ */) : >"$CALLS.removing"; sleep 0.5 ;;
esac
PATH=${PATH#*:}
exec "${0##*/}" "$@"
"""


def processes(calls):
    """The processes of a run, by what it notes its commands in."""
    found = []
    for path in pathlib.Path("/proc").glob("[0-9]*/environ"):
        try:
            if f"CALLS={calls}".encode() in path.read_bytes().split(b"\0"):
                found.append(int(path.parent.name))
        except OSError:
            pass
    return found


def runs_parts(pid):
    """Says whether a process is the one that has parts staged here, or GNU parallel."""
    try:
        words = pathlib.Path(f"/proc/{pid}/cmdline").read_bytes().split(b"\0")
        return b'. "$1" && work_on "${@:2}"' in words or b"--will-cite" in words
    except OSError:
        return False


def wait_for(is_there, seconds=120):
    """Waits until the condition holds. Says whether it did."""
    end = time.monotonic() + seconds
    while not is_there():
        if time.monotonic() > end:
            return False
        time.sleep(0.02)
    return True


class Run:
    """A run in a folder of its own, which waits in a phase, if one is named."""

    def __init__(self, runs, name, phase=None, delay="0", out="OUT", terminal=False, hosts=False, more=None,
                 wrapped=None, keep=(), lacks=()):
        self.runs, self.name, self.out, self.wrapped = runs, name, out, wrapped
        self.names = [f"{at:03}" for at in range(16)]
        self.room = runs.work / f"signal-{name}"
        self.inside, self.calls = self.room / "w", f"{self.room}.calls"
        (self.room / "tmp").mkdir(parents=True)
        self.inside.mkdir()
        for at, source in enumerate(self.names):
            if source not in lacks:
                (self.inside / source).write_bytes(image(f"1.2.3.{at + 1}", f"P{at % 3}"))
        waits = PHASES.get(phase) or "never"
        tools = self.room / "tools"
        tools.mkdir()
        for tool in ["xargs"] * (phase == "cutting") + ["rm"] * (phase == "removing"):
            (tools / tool).write_text(TOOL)
            (tools / tool).chmod(0o755)
        environment = runs.environment(self.room, PAUSE_AT=waits, DELAY=delay, TMPDIR=str(self.room / "tmp"),
                                       PATH=f"{tools}:{os.environ['PATH']}", **(more or {}))
        (self.inside / "hosts").write_text(":\n")
        words = [PARALLEL, "-j2", *keep, out, *self.names]
        words += ["--hosts", "hosts"] * hosts
        if phase == "reading":
            words += ["--files0-from", "-"]
        self.begin(words, environment, terminal)

    def begin(self, words, environment, terminal):
        """Begins the run: on a terminal of its own, which all three descriptors are, or with pipes."""
        self.terminal, self.child = None, None
        if self.wrapped:
            words = ["/bin/bash", "-c", self.wrapped, "bash", *words]
        if terminal:
            self.pid, self.terminal = pty.fork()
            if self.pid == 0:
                os.chdir(self.inside)
                os.execve(words[0], words, environment)
            return
        self.child = subprocess.Popen(words, cwd=self.inside, env=environment, stdin=subprocess.PIPE,
                                      stdout=subprocess.PIPE, stderr=subprocess.PIPE)
        self.pid = self.child.pid

    def has_come(self, phase):
        """Waits until the run is in this phase."""
        if phase == "removing":
            return wait_for(lambda: os.path.exists(f"{self.calls}.removing"))
        if phase != "reading":
            return wait_for(lambda: os.path.exists(f"{self.calls}.paused"))
        begun = wait_for(lambda: any(self.inside.glob(".dicomdir-parallel.*/listed")))
        time.sleep(0.4)
        return begun

    def read(self):
        """What a terminal got, to the end of the run."""
        got = b""
        try:
            while more := os.read(self.terminal, 4096):
                got += more
        except OSError:
            pass
        return got.decode()

    def end(self):
        """Waits for the end of the run, and gives its status, which after a signal is below 0."""
        if self.child:
            # What the run waits for is not closed before its end.
            try:
                status = self.child.wait(120)
            except subprocess.TimeoutExpired:
                self.child.kill()
                status = None
            self.output, self.errors = self.child.stdout.read(), self.child.stderr.read()
            for pipe in self.child.stdin, self.child.stdout, self.child.stderr:
                pipe.close()
            return status
        return os.waitstatus_to_exitcode(os.waitpid(self.pid, 0)[1])

    def looks_clean(self, kept=False):
        """Notes what is left but OUT, and the parts of a run that ended early."""
        left = [name for name in tree(self.room) if "dicomdir-parallel" in name or name.startswith("tmp/")]
        if left and not kept:
            self.runs.fault(f"{self.name}: left there: {left[:5]}")
        if not wait_for(lambda: not processes(self.calls), 20):
            self.runs.fault(f"{self.name}: processes are left: {processes(self.calls)}")

    def is_ended_by(self, number, status, published=False):
        """Notes what is not as wanted where this signal ended the run. Bash is not ended by QUIT, but answers it. Where
        parts were whole they are kept, and named on the error output, and a run goes on with them."""
        if status != (128 + number if number == signal.SIGQUIT else -number):
            self.runs.fault(f"{self.name}: the status is {status}")
        if not published and any(name.startswith("OUT") for name in tree(self.inside)):
            self.runs.fault(f"{self.name}: OUT is there")
        kept = bool(self.child and NAMED.fullmatch(self.errors))
        if self.child and (self.output or self.errors) and not kept:
            self.runs.fault(f"{self.name}: it says {self.output + self.errors}")
        self.looks_clean(kept or not self.child)
        if kept:
            self.goes_on()

    def goes_on(self, change=None, keep=()):
        """Goes on with the parts that were kept, with -k or without, and gives how many were staged then."""
        folder = NAMED.search(self.errors)[1]
        if change:
            change(self.inside)
        shutil.rmtree(self.inside / "OUT", ignore_errors=True)
        pathlib.Path(self.calls).unlink(missing_ok=True)
        resume = os.fsdecode(os.path.relpath(folder, os.fsencode(self.inside)))
        found = self.runs.run([PARALLEL, "-j3", *keep, "--resume", resume, self.out], self.inside,
                              self.runs.environment(self.room))
        wanted = self.runs.run([self.runs.program, "index", *keep, "ONE", *self.names], self.inside, dict(os.environ))
        if found != wanted or tree(self.inside / self.out) != tree(self.inside / "ONE"):
            self.runs.fault(f"{self.name}: --resume says {found}, or makes another file-set")
        self.looks_clean()
        return sum(call.startswith("stage ") for call in pathlib.Path(self.calls).read_text().splitlines())


def try_phase(runs, phase, number, out="OUT", hosts=False):
    """Sends a signal to a run that is in this phase, and to it alone."""
    name = f"{phase}-{number.name}-{out.replace('/', '_')}{'-hosts' * hosts}"
    run = Run(runs, name, phase, out=out, hosts=hosts)
    if not run.has_come(phase):
        runs.fault(f"{run.name}: it did not come there")
    sent = time.monotonic()
    os.kill(run.pid, number)
    run.is_ended_by(number, run.end())
    if bool(run.errors) != (phase == "publishing"):
        runs.fault(f"{run.name}: parts are kept, or not")
    if time.monotonic() - sent > 60:
        runs.fault(f"{run.name}: it took {time.monotonic() - sent:.1f} seconds to end")


def try_removing(runs, number):
    """Sends a signal to a run that removes the piles. All is done then but that."""
    run = Run(runs, f"removing-{number.name}", "removing")
    if not run.has_come("removing"):
        runs.fault(f"{run.name}: it did not come there")
    os.kill(run.pid, number)
    if run.end() != 0 or not run.output.startswith(b"DONE 16 instances, ") or run.errors:
        runs.fault(f"{run.name}: it says {run.output + run.errors}")
    run.looks_clean()


def try_terminal(runs, phase):
    """Types Ctrl-C."""
    run = Run(runs, f"{phase}-typed", phase, terminal=True)
    if not run.has_come(phase):
        runs.fault(f"{run.name}: it did not come there")
    os.write(run.terminal, b"\x03")
    got = run.read()
    run.is_ended_by(signal.SIGINT, run.end())
    if ("8 of 8 parts are in " in got) != (phase == "publishing") or "FAULT" in got:
        runs.fault(f"{run.name}: the terminal got {got!r}")


def try_any_time(runs, seed, latest):
    """Sends a signal at any time of the first seconds. The run is ended by it, or whole."""
    chance = random.Random(seed)
    number = chance.choice([signal.SIGINT, signal.SIGTERM, signal.SIGHUP])
    run = Run(runs, f"any-time-{seed}-{latest}", delay="0.05")
    time.sleep(chance.uniform(0, latest))
    if run.child.poll() is None:
        os.kill(run.pid, number)
    status = run.end()
    if status != 0:
        whole = (run.inside / "OUT" / "DICOMDIR").exists() and run.output.startswith(b"DONE 16 instances, ")
        run.output = b"" if whole else run.output
        run.is_ended_by(number, status, published=True)
    else:
        run.looks_clean()
        if not (run.inside / "OUT" / "DICOMDIR").exists() or not run.output.startswith(b"DONE 16 instances, "):
            runs.fault(f"{run.name}: it is not whole: {run.output + run.errors}")


# What becomes of the error output before the run is ended: the disc that it goes to is full; nobody reads it any more; or
# the terminal is closed, or its Ctrl-C ends the program that reads the output, too.
LOST = {"full": 'exec "$@" 2>/dev/full', "closed": 'exec "$@" 2> >(exec true)', "hung-up": None,
        "tee": '"$@" 2>&1 | tee log'}


def try_lost(runs, kind):
    """Ends a run whose error output is lost: its piles are kept as they are."""
    terminal = LOST[kind] is None or "tee" in LOST[kind]
    run = Run(runs, f"lost-{kind}", "publishing", terminal=terminal, wrapped=LOST[kind])
    if not run.has_come("publishing"):
        runs.fault(f"{run.name}: it did not come there")
    folder = next(run.inside.glob(".dicomdir-parallel.*"))
    piles = {path.name: tree(path) for path in folder.iterdir() if path.name.isdigit()}
    if kind == "tee":
        os.write(run.terminal, b"\x03")
        run.read()
    elif terminal:
        os.close(run.terminal)
    else:
        os.kill(run.pid, signal.SIGTERM)
    run.end()
    wait_for(lambda: not processes(run.calls), 20)
    if len(piles) != 8 or piles != {path.name: tree(path) for path in folder.glob("[0-9]") if path.is_dir()}:
        runs.fault(f"{run.name}: the piles are not as they were: {sorted(tree(run.inside))[:9]}")
        return
    run.errors = b"dicomdir-parallel: 8 of 8 parts are in %s: --resume goes on with them\n" % os.fsencode(folder)
    run.goes_on()


# Kills itself in the place of the program, the first time or always, as it stages the second part.
KILLED = """#!/bin/sh
case "$1 $*" in stage*\\ 2.*) [ ! "$ALWAYS" ] && ! mkdir "$CALLS.killed" 2>/dev/null || kill -s "$SIGNAL" $$ ;; esac
printf '%s\\n' "$1 " >>"$CALLS"
exec "$REAL" "$@"
"""


def try_killed_part(runs, number, always, hosts=False):
    """Has a part killed once, or each time. It is begun again once, and then its fault is the fault of the run. Of what
    was kept a part is staged anew where one of its files was changed."""
    name = f"part-{number.name}-{'always' * always}{'-hosts' * hosts}"
    program = runs.work / f"{name}.program"
    program.write_text(KILLED)
    program.chmod(0o755)
    run = Run(runs, name, hosts=hosts, more={"DICOMDIR_PROGRAM": str(program), "ALWAYS": "1" * always,
                                             "SIGNAL": str(int(number))})
    status = run.end()
    if not always:
        if status != 0 or not run.output.startswith(b"DONE 16 instances, ") or run.errors:
            runs.fault(f"{run.name}: {status, run.output, run.errors}")
        run.looks_clean()
        return
    line = f"error: part 2 of 8 was killed twice, the second time by signal {int(number)}\n".encode()
    if status != 1 or run.output or not run.errors.startswith(line) or not NAMED.fullmatch(run.errors[len(line):]):
        runs.fault(f"{run.name}: {status, run.output, run.errors}")
        return
    run.looks_clean(kept=True)
    lacking = 8 - int(run.errors[len(line):].split()[1])
    staged = run.goes_on(lambda inside: (inside / "000").write_bytes(image("1.2.3.1", "P0", more="2")))
    if staged != lacking + 1:
        runs.fault(f"{run.name}: {staged} parts were staged, and {lacking} and one were lacking")


# What -k skips in a run, and what is changed before another one goes on with it, with -k or without; and how many parts
# are staged again then, of which each has two sources.
SKIPPED = {"as it was": ("-k", None, "-k", 0), "all there": ("-k", lambda inside: make(inside, "003"), "-k", 1),
           "one more": ("-k", lambda inside: (inside / "009").unlink(), "-k", 1),
           "another": ("-k", lambda inside: ((inside / "009").unlink(), make(inside, "003")), "-k", 2),
           "no file": ("-k", lambda inside: ((inside / "009").unlink(), (inside / "009").mkdir()), "-k", 1),
           "no longer": ("-k", None, "", 1), "first now": ("", lambda inside: (inside / "009").unlink(), "-k", 1)}


def make(inside, name):
    """Makes another source."""
    (inside / name).write_bytes(image(f"1.2.4.{name}".replace(".0", ".1"), "P4"))


def try_skipped(runs, case):
    """Ends a run once all parts are staged, and goes on with it, where -k skips sources."""
    before, change, after, staged = SKIPPED[case]
    name = f"skipped-{case.replace(' ', '-')}"
    run = Run(runs, name, "publishing", keep=before.split(), lacks=["003"] * bool(before))
    if not run.has_come("publishing"):
        runs.fault(f"{run.name}: it did not come there")
    os.kill(run.pid, signal.SIGTERM)
    if run.end() != -signal.SIGTERM or not NAMED.fullmatch(run.errors):
        runs.fault(f"{run.name}: it ended otherwise: {run.errors}")
        return
    found = run.goes_on(change, after.split())
    if found != staged:
        runs.fault(f"{run.name}: {found} parts were staged, and not {staged}")


def try_killed(runs, hosts):
    """Kills what has the parts staged. It is begun again."""
    run = Run(runs, f"killed{'-hosts' * hosts}", delay="0.3", hosts=hosts)
    wait_for(lambda: "stage " in (pathlib.Path(run.calls).read_text() if os.path.exists(run.calls) else ""))
    for pid in filter(runs_parts, processes(run.calls)):
        os.kill(pid, signal.SIGKILL)
    if run.end() != 0 or not run.output.startswith(b"DONE 16 instances, ") or run.errors:
        runs.fault(f"{run.name}: it says {run.output + run.errors}")
    run.looks_clean()


def try_refused(runs):
    """Goes on with no folder that is another's, or that no run has left, or in which one works, and in no other place."""
    run = Run(runs, "refused", "publishing")
    run.has_come("publishing")
    (run.room / "other").mkdir(0o700)
    folder = next(run.inside.glob(".dicomdir-parallel.*"))
    odd = run.inside / "odd"
    odd.mkdir(0o700)
    cases = [(run.inside, folder.name, f"a run works in {folder.name}"), (run.room / "other", str(folder), "that run was begun in "),
             (run.inside, "odd", "odd is not a folder of your own that a run has left"),
             (run.inside, "none", "none is not a folder of your own that a run has left")]
    for inside, given, wanted in cases:
        found = runs.run([PARALLEL, "--resume", given, "OUT2"], inside, {**os.environ, "DICOMDIR_PROGRAM": runs.program})
        if found[0] != 1 or found[1] or not found[2].startswith(f"error: {wanted}".encode()):
            runs.fault(f"--resume {given}: {found}")
    for words in ["OUT", "000"], [], ["OUT", "--dry-run"], ["OUT", "--files0-from", "x"]:
        found = runs.run([PARALLEL, "--resume", folder.name, *words], run.inside, dict(os.environ))
        if found[0] != 2 or found[1] or b"--resume <FOLDER>" not in found[2]:
            runs.fault(f"--resume {words}: {found}")
    os.kill(run.pid, signal.SIGTERM)
    status = run.end()
    refuse_others(run, folder)
    run.is_ended_by(signal.SIGTERM, status)


def refuse_others(run, folder):
    """Goes on with a run for its own OUT alone, and with its own list."""
    cases = [("OUT2", None, "that run makes OUT, and not OUT2"),
             ("OUT", "names", f"the list of names in {folder.name} was changed"),
             ("OUT", "2.names", f"the list of names in {folder.name} was changed")]
    for out, changed, wanted in cases:
        before = changed and (folder / changed).read_bytes()
        if changed:
            (folder / changed).write_bytes(before.replace(b"2", b"0", 1))
        standing = tree(run.inside)
        found = run.runs.run([PARALLEL, "--resume", folder.name, out], run.inside,
                             {**os.environ, "DICOMDIR_PROGRAM": run.runs.program})
        if found != (1, b"", f"error: {wanted}\n".encode()) or tree(run.inside) != standing:
            run.runs.fault(f"--resume {out}, with another {changed}: {found}, or something was changed")
        if changed:
            (folder / changed).write_bytes(before)


def try_progress(runs):
    """Shows progress on a terminal, which is gone at the end."""
    run = Run(runs, "progress", delay="0.4", terminal=True)
    got = run.read()
    lines = [line.removesuffix("\x1b[K") for line in got.split("\r")]
    run.end()
    run.looks_clean()
    if not any(line.startswith("staged ") and line.endswith(" of 8 parts") for line in lines):
        runs.fault(f"{run.name}: no line of progress in {got!r}")
    if not re.search("\r\x1b\\[K(.*\r\x1b\\[K)?DONE 16 instances, [0-9]+ bytes\r\n", got, re.DOTALL):
        runs.fault(f"{run.name}: the terminal got {got!r}")


def try_signals(runs):
    """Ends runs in each phase. Gives how many there were. A shell that began this one in the background had it ignore
    signals, and what is begun here would ignore them, too."""
    for number in (signal.SIGHUP, signal.SIGINT, signal.SIGQUIT, signal.SIGTERM):
        signal.signal(number, signal.SIG_DFL)
    tries = [(try_phase, phase, number) for phase in PHASES for number in (signal.SIGINT, signal.SIGTERM)]
    tries += [(try_phase, "staging", number) for number in (signal.SIGHUP, signal.SIGQUIT)]
    tries += [(try_phase, phase, signal.SIGINT, "OUT", True) for phase in ("staging", "publishing") if runs.hosts]
    tries += [(try_phase, "publishing", signal.SIGTERM, "OUT/a/b")]
    tries += [(try_removing, number) for number in (signal.SIGINT, signal.SIGTERM)]
    tries += [(try_terminal, phase) for phase in ("cutting", "staging", "publishing")]
    tries += [(try_any_time, seed, latest) for seed in range(12) for latest in (0.1, 3)]
    with concurrent.futures.ThreadPoolExecutor(2 * (os.cpu_count() or 1)) as at_once:
        begun = [at_once.submit(what, runs, *words) for what, *words in tries]
        begun += [at_once.submit(try_lost, runs, kind) for kind in LOST]
        begun += [at_once.submit(try_skipped, runs, case) for case in SKIPPED]
        begun += [at_once.submit(try_killed, runs, hosts) for hosts in {False, runs.hosts}]
        begun += [at_once.submit(try_progress, runs), at_once.submit(try_refused, runs)]
        begun += [at_once.submit(try_killed_part, runs, number, always) for always in (False, True)
                  for number in (signal.SIGKILL, signal.SIGTERM)]
        begun += [at_once.submit(try_killed_part, runs, signal.SIGKILL, always, True) for always in (False, True)
                  if runs.hosts]
    for one in begun:
        one.result()
    return len(tries)
