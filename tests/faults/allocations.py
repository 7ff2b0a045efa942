"""Runs with allocations refused."""
import re

from rooms import count_kinds, harm, result_of, tell_standing

MEMORY = "FAULT -: 91 Memory\n"
# A file or a folder whose path finds no memory is refused as one that can't be opened or made.
FAULT = re.compile(r"FAULT OUT[^:\n]*: (94 Create|95 Folder)\n")


def tasks(case):
    """Each allocation of the undisturbed run, refused alone and with all that follow; and one more, that never comes."""
    for allocation in range(1, case.right.allocations + 2):
        for lasts in (False, True):
            yield allocation, lasts


def judge(case, run):
    """What is wrong in a run in which allocations were refused."""
    found = harm(case, run)
    # A file whose new name finds no memory is copied.
    copied = [path for path in case.right.links if path in run.left and path not in run.links]
    if len(copied) > 1:
        found.append("more than one image is copied")
    if run.is_as(case.right):
        return found
    if run.status != 1 or not (run.err == MEMORY or FAULT.fullmatch(run.err)):
        found.append("it ends neither as the undisturbed run nor with 1 and a line")
    if not case.right.out.startswith(run.out):
        found.append("its output is no front of what it has to be")
    if not run.calls and run.err != MEMORY:
        found.append("no file was looked at, and the line is another")
    return found


def try_one(room, case, task):
    """Does a task."""
    allocation, lasts = task
    run = room.run(case.command, REFUSE_ALLOCATION=str(allocation), **({"REFUSE_LATER": "1"} if lasts else {}))
    what = f"allocation {allocation} {'and all later' if lasts else 'alone'}"
    if allocation > case.right.allocations:
        wrong = ["the undisturbed run has no such allocation"] if run.refused or not run.is_as(case.right) else []
        return result_of(case, what, run, "", wrong)
    kind = run.kind_as(case.right) if run.is_as(case.right) else run.err.rsplit(": ", 1)[-1].strip()
    return result_of(case, what, run, kind, judge(case, run))


def sum_up(case, results):
    """Tells what came of the allocations of a command."""
    kinds = [result.kind for _, result in results if result.kind]
    print(f"{case.command.name}: {case.right.allocations} allocations, {len(kinds)} runs: {count_kinds(kinds)}")
    tell_standing(results)


def sum_up_all(_):
    """There is nothing more to tell, and nothing more that is wrong."""
    return []
