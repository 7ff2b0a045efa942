"""Runs with calls of the system that fail."""
import collections
import dataclasses
import errno
import os

from rooms import DIRECTORY, OUTPUT, Command, count_kinds, harm, result_of, tell_standing

# It is opened first. Where a standard descriptor is closed, it stays open in its place.
NULL = "/dev/null"
# What comes of a look at a file that is listed, and fails: its path is not given.
UNFOUND = "UNFOUND "

# The errors that the calls fail with. EINVAL and EOPNOTSUPP are what a file system says that can't store a folder,
# EMFILE is what the system says where the process has no more descriptors. EXDEV, EPERM and EMLINK are what it says
# of a hard link to another file system, of one that it does not make, and of one too many.
ERRORS = {
    "statx": ("EIO", "EACCES", "EINTR"),
    "fstat": ("EIO", "EACCES", "EINTR"),
    "open": ("EIO", "EACCES", "EMFILE", "EINTR"),
    "create": ("EIO", "ENOSPC", "EMFILE", "EINTR"),
    "read": ("EIO", "EINTR"),
    "write": ("EIO", "ENOSPC", "EINTR"),
    "mkdir": ("EIO", "ENOSPC", "EINTR"),
    "link": ("EIO", "ENOSPC", "EXDEV", "EPERM", "EMLINK", "EEXIST", "EINTR"),
    "fsync": ("EIO", "EACCES", "ENOSPC", "EINVAL", "EOPNOTSUPP", "EINTR"),
    "close": ("EIO", "ENOSPC", "EINTR"),
}


def tasks(case):
    """Each call of the undisturbed run, by its place there and its number among the calls of its name, with each error,
    alone and with all later ones of its name."""
    counts = collections.Counter()
    for at, call in enumerate(case.right.calls):
        counts[call.name] += 1
        for error in ERRORS[call.name]:
            yield at, counts[call.name], error, False
            # What is interrupted for ever is no disc that fails. Where images are made of the sources that are left, which
            # ones these are decides what the later calls are.
            if error != "EINTR" and not (keeps_going(case) and DIRECTORY in case.right.left):
                yield at, counts[call.name], error, True


# ---- What has to come of a failure: nothing (None), a fault, a finding, a source that is skipped, or that the output
# failed ----


def stages(case):
    """Is a pile made?"""
    return case.command.words.startswith("stage")


def first_made(calls):
    """The place of the first call that makes something."""
    return next((at for at, call in enumerate(calls) if call.name == "mkdir"), len(calls))


def folder_to_make(case, at):
    """The folder that a call of mkdir, or a look after it, is made for: it gets the file that is made next. A pile and
    its folders are made one by one."""
    calls = case.right.calls
    if stages(case):
        return next(call.path for call in calls[at:] if call.name == "mkdir" and call.answer == 0)
    return next(os.path.dirname(call.path) for call in calls[at:] if call.name in ("create", "link"))


def open_images(case, at):
    """How many files that were created or linked are open before this call."""
    paths = collections.Counter()
    for call in case.right.calls[:at]:
        if call.name == "create" or (call.name == "open" and call.path in case.right.links):
            paths[call.path] += 1
        elif call.name == "close" and paths[call.path] > 0:
            paths[call.path] -= 1
    return sum(paths.values())


def of_look(case, call, lasts):
    """The look whether OUT has a directory, or its opening, fails: OUT is looked at again, under all spellings."""
    # OUT has a directory, which is found then. Where each later call fails too, none is found, and the first source
    # is not found either.
    return case.command.words.split()[2] + ": 92 Absent" if lasts else None


def of_folder(case, at):
    """A call to store a folder fails, or the look at one that was not made."""
    calls = case.right.calls
    if calls[at - 1].name == "mkdir" and calls[at - 1].path == calls[at].path:
        return folder_to_make(case, at) + ": 95 Folder"
    return calls[at].path + ": 96 Unsent"


def of_reading(case, at, error, lasts):
    """A look at what is there, its opening, or a read of it fails."""
    calls = case.right.calls
    call = calls[at]
    # A pile that can't be looked at may be there.
    if stages(case) and call == next(first for first in calls if first.name == "statx") and at < first_made(calls):
        return "OUT: 94 Create"
    # Where nothing is there, a look that fails says the same.
    if call.name == "statx" and call.answer < 0:
        return None
    if call.path == NULL:
        # What a read of it answers is not looked at.
        return None if call.name == "read" else "error: /dev/null can't be opened"
    if call.path == DIRECTORY:
        return of_look(case, call, lasts)
    if looks_for_paths(case, at):
        return UNFOUND + next(later.path for later in calls[at:] if f'"path":"{later.path}"' in case.right.out)
    if is_on_the_way(calls, at):
        return of_reading(case, next_opened(calls, at), error, lasts)
    if is_folder(case, call.path):
        return of_folder(case, at)
    # A new name that is not the file that was found: the line names that file.
    if call.path in case.right.links:
        return case.right.links[call.path] + ": 92 Absent"
    if case.command.words.startswith("check") and not call.path.endswith("/DICOMDIR"):
        finding = "UNREADABLE" if call.name == "read" else "MISSING"
        return finding + " " + call.path.split("/", 1)[1].replace("/", "\\")
    return call.path + (": 93 Unread" if call.name == "read" else ": 92 Absent")


def looks_for_paths(case, at):
    """Is it a look at a file that is listed, or at a folder on the way, once the directory was read?"""
    calls = case.right.calls
    return (case.command.words.startswith("list --long --json") and calls[at].name == "statx"
            and all(call.name != "open" for call in calls[at:]))


def is_folder(case, path):
    """Is it a folder that is made, or in which something is made?"""
    return path == "." or (path in case.right.left and case.right.left[path] is None)


def is_on_the_way(calls, at):
    """Is it a look at a folder of a file-set, on the way to a file?"""
    call = calls[at]
    is_given = call.path.split("/")[0] != "OUT"
    return call.name == "statx" and is_given and calls[at + 1].path.startswith(call.path + "/")


def next_opened(calls, at):
    """The place of the look at the file that is opened or linked next."""
    return next(place for place in range(at, len(calls)) if calls[place].name in ("open", "link")) - 1


def consequence(case, at, error, lasts):
    """What has to come of it that this call fails."""
    calls = case.right.calls
    call = calls[at]
    if call.path == OUTPUT:
        return OUTPUT
    # std tells no error of close. A folder that can't be made, and is there, is as good.
    if call.name == "close" or (call.name == "mkdir" and call.answer == -errno.EEXIST):
        return None
    # Files that wait to be stored are closed, and the call is made again.
    if error == "EMFILE" and not lasts and open_images(case, at) > 0:
        return None
    # A folder that its file system can't store is passed over.
    if call.name == "fsync" and error in ("EINVAL", "EOPNOTSUPP") and is_folder(case, call.path):
        return None
    if call.name == "mkdir":
        return folder_to_make(case, at) + ": 95 Folder"
    # A file whose new name is refused is copied, but where that name is taken.
    if call.name == "link" and error != "EEXIST":
        return None
    if call.name in ("create", "link"):
        return call.path + ": 94 Create"
    if call.name in ("write", "fsync"):
        return call.path + ": 96 Unsent"
    return of_reading(case, at, error, lasts)


def is_for_copy(case, call, closed):
    """Is this a look at a file that is copied, its opening or a read of it, after those for its version?"""
    is_given = call.name in ("statx", "open", "fstat", "read") and call.path.split("/")[0] != "OUT"
    if not is_given or call.path == NULL or call.path.endswith(("/DICOMDIR", "/STAGED")):
        return False
    # The list of names is read before all files.
    if call.path == "names":
        return False
    # The sources of an index were read before, and closed.
    return closed[call.path] > 0 if case.command.words.startswith("index") else True


def turns(case):
    """The place at which it shows that a call fails, by the place of the call, where both differ. A file that is read
    ahead of its copy is refused in its turn, once the images before it are made."""
    calls, found = case.right.calls, {}
    images = [call.path for call in calls if call.name == "create" and call.path != DIRECTORY]
    if not images or "--link" in case.command.words:
        return found
    closed, files = collections.Counter(), []
    for at, call in enumerate(calls):
        closed[call.path] += call.name == "close"
        file = calls[next_opened(calls, at)] if call.name == "statx" and is_on_the_way(calls, at) else call
        if is_for_copy(case, file, closed):
            files.extend([] if file.path in files else [file.path])
            before = images[:files.index(file.path)]
            written = [place for place, made in enumerate(calls) if made.name == "write" and made.path in before[-1:]]
            found[at] = max([at] + written)
    return found


def line_of(case, found):
    """The line on the error output. Where the output fails it is empty, but for a fault 41, which is printed after its
    notes all the same."""
    if found == OUTPUT:
        return case.right.err if case.right.err.startswith("FAULT -: 41 ") else ""
    return f"{found}\n" if found.startswith("error") else f"FAULT {found}\n"


def found_lines(case, findings):
    """The output where these are found of their files, and of each other file what the undisturbed run finds."""
    found = {finding.split(" ")[1]: finding for finding in findings}
    others = [line for line in case.right.out.splitlines() if line.startswith("NODIGEST ")]
    lines = [found.pop(line.split(" ")[1], line) for line in others] + list(found.values())
    return "".join(f"{line}\n" for line in lines)


def without_paths(case, findings):
    """The output of list where these files are not found."""
    out = case.right.out
    for finding in findings:
        out = out.replace(f'"path":"{finding.removeprefix(UNFOUND)}"', '"path":null')
    return out


def keeps_going(case):
    """Does the command go on past a source that fails?"""
    return "--keep-going" in case.command.words


def sources(case):
    """The sources of an index, in their order."""
    return [word for word in case.command.words.split()[2:] if not word.startswith(("-", "2."))]


def skipped(case, task):
    """The faults of the sources that are passed since this call fails, and each later one of its name where that
    lasts, by their paths."""
    at, _, error, lasts = task
    calls, found = case.right.calls, {}
    closed = {call.path: place for place, call in reversed(list(enumerate(calls))) if call.name == "close"}
    for place in range(at, len(calls)) if lasts else [at]:
        if calls[place].name == calls[at].name and place <= closed.get(calls[place].path, place):
            path, _, fault = (consequence(case, place, error, lasts) or "").partition(": ")
            if path == "error":
                break
            if path in sources(case):
                found.setdefault(path, fault)
    return found


def without(room, case, faults):
    """The case of the same command where sources that are not there stand in the places of these, with their lines."""
    words = " ".join("absent/" + word if word in faults else word for word in case.command.words.split())
    other = room.learn(Command(case.command.name, words, case.command.before))
    out = other.right.out
    for path, fault in faults.items():
        out = out.replace(f"SKIP absent/{path}: 92 Absent\n", f"SKIP {path}: {fault}\n")
    return dataclasses.replace(other, right=dataclasses.replace(other.right, out=out))


def is_as_failed(case, run, task):
    """Has the run the status and the lines that must come of it that this call fails, and each later one of its name
    where that lasts?"""
    at, _, error, lasts = task
    calls = case.right.calls
    places = range(at, len(calls)) if lasts else [at]
    shown = turns(case) if lasts else {}
    places = sorted(places, key=lambda place: shown.get(place, place))
    findings = []
    for found in [consequence(case, place, error, lasts) for place in places if calls[place].name == calls[at].name]:
        if found is None or found in findings:
            continue
        if found.startswith(("MISSING", "UNREADABLE", UNFOUND)):
            findings.append(found)
            continue
        return (run.status, run.err) == (1, line_of(case, found)) and case.right.out.startswith(run.out)
    if findings and findings[0].startswith(UNFOUND):
        return (run.status, run.out, run.err) == (0, without_paths(case, findings), "")
    if findings:
        return (run.status, run.out, run.err) == (3, found_lines(case, findings), "")
    return run.is_as(case.right)


# ---- The runs ----


def is_linked(case, run):
    """Is each image a hard link that is one in the undisturbed run, but where that link was refused?"""
    refused = {call.path for call in run.calls
               if call.name == "link" and call.is_refused and call.answer != -errno.EINTR}
    return all(path in run.links or path in refused for path in run.left if path in case.right.links)


def judge(case, run, task):
    """What is wrong in a run in which this call fails."""
    found = harm(case, run)
    if not is_linked(case, run):
        found.append("an image is copied whose hard link was not refused")
    if not (is_as_failed(case, run, task) or (task[2] == "EINTR" and run.is_as(case.right))):
        found.append("it is not what has to come of this")
    cause = f"  cause: {os.strerror(getattr(errno, task[2]))}\n"
    # After a look that fails, the program looks for other spellings, or makes the folder, which has a cause of its own.
    is_look = case.right.calls[task[0]].name == "statx"
    if not is_look and any(line.startswith("  cause: ") and line != cause for line in run.hints):
        found.append("the cause is another one")
    return found


def kind_of(case, run, error):
    """What came of it that a call fails."""
    if run.is_as(case.right):
        return run.kind_as(case.right)
    if error == "EINTR":
        return "not made again"
    if run.status == 3:
        return "a finding"
    if run.status == 0 and case.command.words.startswith("list"):
        return "a path not given"
    return run.err.rsplit(": ", 1)[-1].strip() or "1 and no line"


def try_one(room, case, task):
    """Does a task."""
    at, number, error, lasts = task
    call = case.right.calls[at]
    refused = f"{call.name} {number} {getattr(errno, error)}"
    run = room.run(case.command, REFUSE_CALL=refused, **({"REFUSE_LATER": "1"} if lasts else {}))
    what = f"{call.name} {number} {call.path} {error} {'and all later' if lasts else 'alone'}"
    faults = skipped(case, task) if keeps_going(case) else {}
    if not faults or (error == "EINTR" and run.is_as(case.right)):
        return result_of(case, what, run, kind_of(case, run, error), judge(case, run, task))
    other = without(room, case, faults)
    wrong = harm(other, run) + ([] if run.is_as(other.right) else ["it is not what has to come of this"])
    return result_of(other, what, run, "a source skipped" if run.is_as(other.right) else kind_of(case, run, error), wrong)


def sum_up(case, results):
    """Tells what calls of a command failed."""
    calls = case.right.calls
    shown = count_kinds(call.name for call in calls)
    print(f"{case.command.name}: {len(calls)} calls ({shown}), {len(results)} runs")
    tell_standing(results)


def sum_up_all(cases):
    """Tells what came of each call and error, over all commands. Gives the calls that a signal interrupts (EINTR)
    and that are not made again: faults of the program."""
    kinds = collections.defaultdict(list)
    for case, results in cases:
        for (at, _, error, _), result in results:
            kinds[case.right.calls[at].name, error].append(result.kind)
    for (name, error), kinds_of in sorted(kinds.items()):
        print(f"{name} {error}: {len(kinds_of)} runs: {count_kinds(kinds_of)}")
    found = {name for (name, _), kinds_of in kinds.items() if "not made again" in kinds_of}
    return [f"{name} that is interrupted is not made again" for name in sorted(found)]
