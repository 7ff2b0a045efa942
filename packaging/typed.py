#!/usr/bin/env python3
"""Types lines and Tab into a shell, in a terminal of its own, and compares what stands there then.

    packaging/typed.py bash|zsh|fish FOLDER

FOLDER has the completions, as packaging/completions has them. The status is 1 where one line is not as wanted.
"""

import os
import pty
import select
import signal
import sys
import tempfile
import time

# What is typed after 'dicomdir ', or where it begins so in place of that, and what stands there after Tab. The folder
# has the files 'one.dcm' and 'only file', and the folders 'one' and 'two folders'.
CASES = [
    ("wi", "withdraw "),
    ("index --m", "index --max-bytes "),
    ("index --s", "index --strict "),
    ("index --d", "index --dry-run "),
    ("index --f", "index --files0-from "),
    ("index --files0-from onl", "index --files0-from only\\ file "),
    ("index --files0-from one.dcm on", "index --files0-from one.dcm one/"),
    ("index o", "index one/"),
    ("index one/ one.", "index one/ one.dcm "),
    ("index --id DISC1 one/ on", "index --id DISC1 one/ on"),
    ("index one/ onl", "index one/ only\\ file "),
    ("merge one/ tw", "merge one/ two\\ folders/"),
    ("merge one/ --files0-from=one.", "merge one/ --files0-from=one.dcm "),
    ("merge --l", "merge --link "),
    ("withdraw --d", "withdraw --dry-run "),
    ("stage --fr", "stage --from "),
    ("stage --k", "stage --keep-going "),
    ("stage --from tw", "stage --from two\\ folders/"),
    ("stage one/ one.", "stage one/ one.dcm "),
    ("publish --l", "publish --link "),
    ("publish one/ tw", "publish one/ two\\ folders/"),
    ("check --k", "check --keys "),
    ("check --q", "check --quiet "),
    ("check --s", "check --strict "),
    ("check --keys two\\ f", "check --keys two\\ folders/"),
    ("list on", "list one/"),
    ("list --j", "list --json "),
    ("list --l", "list --long "),
    ("list --v", "list --verbose "),
    ("list onl", "list onl"),
    ("help li", "help list "),
    ("dicomdir-parallel --ho", "dicomdir-parallel --hosts "),
    ("dicomdir-parallel --hosts onl", "dicomdir-parallel --hosts only\\ file "),
    ("dicomdir-parallel -j 2 one/ one.", "dicomdir-parallel -j 2 one/ one.dcm "),
    ("dicomdir-parallel --li", "dicomdir-parallel --li"),
    ("dicomdir-slurm --w", "dicomdir-slurm --wait "),
    ("dicomdir-slurm --wait -j 2 tw", "dicomdir-slurm --wait -j 2 two\\ folders/"),
    ("dicomdir-slurm --ho", "dicomdir-slurm --ho"),
]

# By the ways of zsh an option that takes a value gets =, and where no folder begins so, files are offered. For fish
# the first path of index may be a file, too.
OTHERWISE = {
    "zsh": {
        "index --m": "index --max-bytes=",
        "index --f": "index --files0-from=",
        "stage --fr": "stage --from=",
        "list onl": "list only\\ file ",
        "dicomdir-parallel --ho": "dicomdir-parallel --hosts=",
    },
    "fish": {"index o": "index on", "index --files0-from one.dcm on": "index --files0-from one.dcm on"},
}

START = {
    "bash": (
        ["bash", "--noprofile", "--rcfile", "{room}/start", "-i"],
        """PS1='READY> '
bind 'set enable-bracketed-paste off'
. '{folder}/dicomdir.bash'
said() {{ printf '%s' "$READLINE_LINE" >'{room}/new'; mv '{room}/new' '{room}/said'; }}
bind -x '"\\C-xd": said'
cd '{room}/files'
""",
    ),
    "zsh": (
        ["zsh", "-d", "-i"],
        """PS1='READY> '
unset zle_bracketed_paste
fpath=('{folder}' $fpath)
autoload -U compinit
compinit -u -D
said() {{ print -rn -- "$BUFFER" >'{room}/new'; mv '{room}/new' '{room}/said'; }}
zle -N said
bindkey '^Xd' said
cd '{room}/files'
""",
    ),
    "fish": (
        ["fish", "--no-config", "--init-command", "source '{room}/start'"],
        """function fish_prompt; printf 'READY> '; end
for file in '{folder}'/*.fish; source $file; end
function said; commandline >'{room}/new'; mv '{room}/new' '{room}/said'; end
bind \\cxd said
cd '{room}/files'
""",
    ),
}


def wait_for(terminal, is_there):
    """Reads what the shell shows until the condition holds of it."""
    shown = b""
    end = time.monotonic() + 30
    while not is_there(shown):
        if time.monotonic() > end:
            sys.exit(f"packaging/typed.py: no answer, but {shown!r}")
        if select.select([terminal], [], [], 0.05)[0]:
            shown += os.read(terminal, 4096)


def complete(words, environment, room, typed):
    """What stands on the line after Tab."""
    said = os.path.join(room, "said")
    shell, ours = pty.fork()
    if shell == 0:
        os.execvpe(words[0], words, environment)
    wait_for(ours, lambda shown: b"READY> " in shown)
    prompted = "" if typed.startswith("dicomdir") else "dicomdir "
    os.write(ours, prompted.encode() + typed.encode() + b"\t\x18d")
    wait_for(ours, lambda shown: os.path.exists(said))
    with open(said, encoding="utf-8") as file:
        line = file.read().rstrip("\n")
    os.remove(said)
    os.kill(shell, signal.SIGKILL)
    os.waitpid(shell, 0)
    os.close(ours)
    return line.removeprefix(prompted)


def main():
    shell, folder = sys.argv[1], os.path.abspath(sys.argv[2])
    failed = False
    with tempfile.TemporaryDirectory() as room:
        os.makedirs(os.path.join(room, "files", "one"))
        os.mkdir(os.path.join(room, "files", "two folders"))
        for name in "one.dcm", "only file":
            open(os.path.join(room, "files", name), "w", encoding="utf-8").close()
        words, start = START[shell]
        words = [word.format(room=room) for word in words]
        start = start.format(room=room, folder=folder)
        for name in "start", ".zshrc":
            with open(os.path.join(room, name), "w", encoding="utf-8") as file:
                file.write(start)
        environment = {
            "HOME": room,
            "ZDOTDIR": room,
            "PATH": os.environ["PATH"],
            "TERM": "xterm",
            "LC_ALL": "C.UTF-8",
        }
        for typed, wanted in CASES:
            wanted = OTHERWISE.get(shell, {}).get(typed, wanted)
            line = complete(words, environment, room, typed)
            if line != wanted:
                print(f"{shell}: '{typed}' becomes '{line}', and not '{wanted}'", file=sys.stderr)
                failed = True
    sys.exit(failed)


main()
