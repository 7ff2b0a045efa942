"""Exchanges the private folder of a run by another user of the same group, who owns the folder that it is in, at many
moments. Nothing else may change, and the run gives its right answer, or a fault. For parallel; as root."""
import concurrent.futures
import os
import pathlib
import shutil
import subprocess
import time

import beside
from beside import PARALLEL, TOP, image, tree

# The user of the run, another one, and the group of both.
USER, OTHER, GROUP = 64001, 64002, 64000
# Tools that the scripts call. At the numbered call of one the folder is exchanged before it runs, or after mktemp.
TOOLS = "mktemp stat find ln sed xargs awk head cat tail mv rm rmdir nproc sbatch dicomdir".split()
CALLS = 1, 2, 3, 5, 8
# The modes of the folder above: the other user may exchange names in it by the group, or as its owner.
MODES = {0o2770: USER, 0o3770: OTHER}
# What takes the folder's place: a link to a folder of the user, such a folder, one of the other user with links to
# the user's files, or nothing.
KINDS = "link", "folder", "snare", "nothing"
NUMBERS = [f"{at:03}" for at in range(16)]
TOOL = """#!/bin/sh
tool=${0##*/}
exchange() {
    mkdir "$ROOM/call.$1" 2>/dev/null || { [ "$1" -ge 9 ] || exchange $(($1 + 1)); return; }
    [ "$tool.$1" = "$MOMENT" ] || return
    : >"$ROOM/wanted"
    while [ ! -e "$ROOM/done" ]; do /bin/sleep 0.01; done
}
[ "$tool" = mktemp ] || [ "$tool" != "${MOMENT%.*}" ] || exchange 1
case $tool in
    mktemp) /usr/bin/mktemp "$@"; status=$?; case $*:$MOMENT in *-d*:mktemp.*) exchange 1 ;; esac; exit $status ;;
    dicomdir) exec "$REAL" "$@" ;;
    sbatch) exec "$ROOM/tools/submit" "$@" ;;
esac
PATH=${PATH#*:}
exec "$tool" "$@"
"""
# In place of sbatch: runs the jobs at once, from a copy of the script.
SUBMIT = """#!/usr/bin/env bash
tasks=0 at=0
while [ "$1" != -- ]; do
    case $1 in --array=0-*) tasks=${1#*-*-*-} ;; esac
    shift
done
cp -- "$2" "$ROOM/copy.$$" && chmod +x "$ROOM/copy.$$"
for ((at = 0; at <= tasks; at++)); do
    (cd / && SLURM_ARRAY_TASK_ID=$at "$ROOM/copy.$$" "${@:3}" >>"$ROOM/job.log" 2>&1)
done
echo $$
"""
# The first call of such a tool waits, in the room of its run, until it may go on; mktemp after it has made the folder.
WAITING = """#!/bin/sh
tool=${0##*/}
[ "$tool" != mktemp ] || made=$(/usr/bin/mktemp "$@") || exit
if mkdir "$ROOM/$tool.came" 2>/dev/null; then
    while [ ! -e "$ROOM/$tool.go" ]; do /bin/sleep 0.01; done
fi
[ "$tool" != mktemp ] || { echo "$made"; exit; }
PATH=${PATH#*:}
exec "$tool" "$@"
"""
# What a run has in its folder.
NAMES = ("from listed names states counts other linked piles log slots 1.names 1.states 1.skipped 1.claim 1.errors "
         "1.fault 1 2 job number status output errors").split()


SCRIPTS = ["dicomdir-parallel", "-j2"], ["dicomdir-slurm", "-j2", "--wait"]


def fill(folder, owner):
    """A folder with files that have the names of a run's."""
    os.mkdir(folder, 0o700)
    for name in NAMES:
        if name in ("1", "2"):
            os.mkdir(f"{folder}/{name}")
            os.chown(f"{folder}/{name}", owner, GROUP)
        path = f"{folder}/{name}/STAGED" if os.path.isdir(f"{folder}/{name}") else f"{folder}/{name}"
        with open(path, "w", encoding="utf-8") as file:
            file.write("precious\n")
        os.chown(path, owner, GROUP)
    os.chown(folder, owner, GROUP)


def lay_snare(folder, precious):
    """A folder of the other user, in which each name leads to a file of the user."""
    os.mkdir(folder)
    for name in NAMES:
        os.symlink(f"{precious}/{name}", f"{folder}/{name}")
    os.chmod(folder, 0o777)


def find_program(runs):
    """The program by a path that the user of the run may take."""
    try:
        subprocess.run([runs.program, "--version"], user=USER, group=GROUP, extra_groups=[], capture_output=True,
                       check=True)
        return runs.program
    except (OSError, subprocess.CalledProcessError):
        path = runs.work / "program"
        shutil.copy(runs.program, path)
        path.chmod(0o755)
        return str(path)


def exchange(place, kind, precious):
    """Puts something else in the place of the private folder, as the other user."""
    name = next((name for name in os.listdir(place) if name.startswith((".dicomdir-parallel.", "dicomdir-slurm."))), None)
    if not name:
        return
    words = {"link": f"mv -T {name} moved && ln -s {precious} {name}", "folder": f"mv -T {name} moved && mv -T own {name}",
             "snare": f"mv -T {name} moved && mv -T snare {name}", "nothing": f"mv -T {name} moved"}[kind]
    subprocess.run(["sh", "-c", words], cwd=place, user=OTHER, group=GROUP, extra_groups=[], check=True)


def prepare(runs, name, mode):
    """A folder for a run, with one in which OUT is to be made, and another user may exchange names."""
    room = runs.work / f"exchange-{name}"
    shutil.rmtree(room, ignore_errors=True)
    (room / "tools").mkdir(parents=True)
    for tool in TOOLS:
        (room / "tools" / tool).write_text(TOOL)
        (room / "tools" / tool).chmod(0o755)
    for tool, text in (("submit", SUBMIT), ("scontrol", "#!/bin/sh\n"), ("squeue", "#!/bin/sh\n"),
                       ("sleep", "#!/bin/sh\nexec /bin/sleep 0.01\n")):
        (room / "tools" / tool).write_text(text)
        (room / "tools" / tool).chmod(0o755)
    room.chmod(0o777)
    for at, name in enumerate(NUMBERS):
        (room / name).write_bytes(image(f"1.2.3.{at + 1}", f"P{at % 3}") if at != 5 else b"This is no image.\n")
    (room / "hosts").write_text(":\n")
    place, precious = room / "place", room / "precious"
    place.mkdir()
    fill(precious, USER)
    fill(place / "own", USER)
    lay_snare(place / "snare", precious)
    os.chown(place / "snare", OTHER, GROUP)
    os.chown(place, MODES.get(mode, USER), GROUP)
    place.chmod(mode)
    return room, place, precious


def try_moment(runs, program, wanted, script, moment, kind, mode):
    """Exchanges the folder at a moment. Says whether the run came there."""
    name = f"{script[0]}{'-hosts' * ('hosts' in script)}-{moment}-{kind}-{mode:o}"
    room, place, precious = prepare(runs, name, mode)
    before = tree(precious), tree(place / "own")
    environment = {**os.environ, "ROOM": str(room), "MOMENT": moment, "REAL": program, "TMPDIR": str(room),
                   "HOME": str(room),
                   "PATH": f"{room}/tools:{os.environ['PATH']}", "DICOMDIR_PROGRAM": str(room / "tools" / "dicomdir")}
    words = [str(TOP / "scripts" / script[0]), *script[1:], "place/OUT", *NUMBERS]
    with subprocess.Popen(words, cwd=room, env=environment, user=USER, group=GROUP, extra_groups=[], umask=0o022,
                          stdin=subprocess.DEVNULL, stdout=subprocess.PIPE, stderr=subprocess.PIPE) as child:
        came = False
        end = time.monotonic() + 120
        while child.poll() is None and time.monotonic() < end:
            if not came and (room / "wanted").exists():
                came = True
                exchange(place, kind, precious)
                (room / "done").touch()
            time.sleep(0.005)
        if child.poll() is None:
            child.kill()
            runs.fault(f"{name}: it does not end")
        output, errors = child.communicate()
    own = find_own(place)
    after = tree(precious), tree(own) if own else None
    for what, one, other in zip(("outside", "in the place"), before, after):
        if one != other:
            runs.fault(f"{name}: what is {what} was changed: {beside.short(one, other or {})}")
    right = (child.returncode, output, errors, files_of(place / "OUT")) == wanted
    if not right and (child.returncode == 0 or not errors):
        runs.fault(f"{name}: no right answer, and no fault: {child.returncode, output, errors}")
    shutil.rmtree(room, ignore_errors=True)
    return came


def find_own(place):
    """The folder of the user, under whatever name."""
    for path in place.iterdir():
        if not path.is_symlink() and path.is_dir() and (path / "names").is_file() and \
                not (path / "names").is_symlink() and (path / "names").read_bytes() == b"precious\n":
            return path
    return None


def files_of(folder):
    """The bytes of all files in a folder."""
    return {path.relative_to(folder): path.read_bytes() for path in folder.rglob("*") if path.is_file()}


def index(runs):
    """What index says and makes."""
    room, _, _ = prepare(runs, "index", 0o700)
    words = [runs.program, "index", "place/OUT", *NUMBERS]
    return (*runs.run(words, room, dict(os.environ)), files_of(room / "place" / "OUT"))


class Rival:
    """One of two runs of a user that make file-sets in the same folder. It waits at its first call of some tools."""

    def __init__(self, room, place, program, tools):
        self.room, self.out = room, f"{place}/{room.name}"
        (room / "tools").mkdir(parents=True)
        for tool in (*tools, "ln"):
            (room / "tools" / tool).write_text(WAITING)
            (room / "tools" / tool).chmod(0o755)
        room.chmod(0o777)
        for name in NUMBERS:
            (room / name).write_bytes(image(f"1.2.3.{name}{len(room.name)}".replace(".0", ".10"), room.name))
        self.program, self.wanted = program, None
        self.names = [str(room / name) for name in NUMBERS]

    def begin(self):
        """Notes what index says and makes of its sources, and begins."""
        words = [self.program, "index", f"{self.room}.wanted", *self.names]
        done = subprocess.run(words, cwd=self.room, capture_output=True, check=True)
        self.wanted = 0, done.stdout, done.stderr, files_of(self.room.with_suffix(".wanted"))
        environment = {**os.environ, "ROOM": str(self.room), "HOME": str(self.room), "DICOMDIR_PROGRAM": self.program,
                       "PATH": f"{self.room}/tools:{os.environ['PATH']}"}
        self.child = subprocess.Popen([PARALLEL, "-j2", self.out, *self.names], cwd=self.room, env=environment, user=USER,
                                      group=GROUP, extra_groups=[], umask=0o022, stdin=subprocess.DEVNULL,
                                      stdout=subprocess.PIPE, stderr=subprocess.PIPE)

    def comes(self, tool):
        """Waits until it calls the tool, or has ended."""
        end = time.monotonic() + 60
        while not (self.room / f"{tool}.came").exists() and self.child.poll() is None and time.monotonic() < end:
            time.sleep(0.01)

    def goes(self, tool):
        """Lets it go on after this call."""
        (self.room / f"{tool}.go").touch()

    def ends(self):
        """What it says and makes."""
        output, errors = self.child.communicate(timeout=120)
        return self.child.returncode, output, errors, files_of(pathlib.Path(self.out))


def try_rivals(runs, program, tool):
    """Has another user give one run the folder of another one, as soon as this has made or entered it, and neither has
    begun to work there. Each makes what index does of its own sources."""
    room = runs.work / f"rivals-{tool}"
    place = room / "place"
    place.mkdir(parents=True)
    os.chown(place, USER, GROUP)
    place.chmod(0o2770)
    room.chmod(0o755)
    one, two = Rival(room / "one", place, program, [tool]), Rival(room / "other", place, program, ["flock"])
    two.begin()
    two.comes("flock")
    its = os.listdir(place)
    one.begin()
    one.comes(tool)
    own = [name for name in os.listdir(place) if name not in its]
    words = f"mv -T {own[0]} moved && mv -T {its[0]} {own[0]}"
    subprocess.run(["sh", "-c", words], cwd=place, user=OTHER, group=GROUP, extra_groups=[], check=True)
    one.goes(tool)
    one.comes("ln")
    two.goes("flock")
    two.comes("ln")
    for run in one, two:
        run.goes("ln")
        found = run.ends()
        if found != run.wanted:
            runs.fault(f"rivals, {tool}: {run.room.name}: {found[:3]}, or other files than those of {run.wanted[:3]}")


def try_exchange(runs):
    """Exchanges the folders of both scripts. Gives how many runs came to the moment."""
    if os.geteuid() != 0 or subprocess.run([PARALLEL, "--help"], user=USER, group=GROUP, extra_groups=[],
                                           capture_output=True, check=False).returncode:
        beside.skip("an exchange of private folders", "no other user can be taken here")
        return 0
    runs.work.chmod(0o711)
    program, wanted = find_program(runs), index(runs)
    scripts = [*SCRIPTS, *([*SCRIPTS[0], "--hosts", "hosts"] for _ in range(runs.hosts))]
    moments = [(script, f"{tool}.{call}") for script in scripts for tool in TOOLS for call in CALLS]
    tries = [(*moment, KINDS[at % len(KINDS)], sorted(MODES)[at // len(KINDS) % 2]) for at, moment in enumerate(moments)]
    with concurrent.futures.ThreadPoolExecutor(2 * (os.cpu_count() or 1)) as at_once:
        came = sum(at_once.map(lambda one: try_moment(runs, program, wanted, *one), tries))
    for tool in "mktemp", "stat":
        try_rivals(runs, program, tool)
    if came < len(tries) // 5:
        runs.fault(f"the folder was exchanged in {came} runs alone")
    return came
