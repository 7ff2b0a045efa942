"""File-sets built by the package and by the program from the same files, compared byte for byte.

    building.py ROOM
"""
import shutil
import subprocess
import sys
from hashlib import sha256
from pathlib import Path

import dicomdir
from cases import EXAMPLES, PACKAGED, TOP, Tally, copy_shown, fault_of, head_of, packaged_images, run

room = Path(sys.argv[1])


def same_folders(one, other):
    """Do two folders have the same files?"""
    return subprocess.run(["diff", "-r", one, other], capture_output=True, check=False).returncode == 0


def options(set_id, uid):
    return (["--id", set_id] if set_id else []) + (["--uid", uid] if uid else [])


def noted(built):
    """The lines NOTE of what was left out, and of Patient IDs with several names."""
    lines = [f"NOTE {path}: left out for {kept}: same SOP Instance UID {uid}, other bytes"
             for path, kept, uid in built.left_out]
    for patient, names in built.names.items():
        shown = ["".join(letter if " " <= letter <= "~" else "?" for letter in name) for name in names]
        patient = "NOID or none" if patient == "NOID" else patient
        lines.append(f"NOTE -: Patient ID {patient} has {len(names)} names: {', '.join(shown)}")
    return lines


def is_as_strict(files):
    """Does `strict` refuse what `index --strict` refuses?"""
    status, _, errors = run("index", "--strict", "--dry-run", room / "none", *files)
    try:
        dicomdir.FileSet.build(files, strict=True)
        return status == 0
    except dicomdir.Fault as fault:
        return status == 1 and fault.words == fault_of(errors)


def builds(tally, files):
    """`index` and `FileSet.build` of the same sources."""
    chance = tally.chance
    some = chance.choices(files, k=chance.randrange(1, 12))
    set_id, uid = chance.choice(("", "DISC1")), chance.choice(("", "1.2.3"))
    number = tally.cases
    out, mine = room / f"index{number}", room / f"built{number}"
    _, output, errors = run("index", "--verbose", out, *some, *options(set_id, uid))
    built = dicomdir.FileSet.build(some, set_id, uid)
    skipped = [line.split(": ", 1)[1] for line in output.splitlines() if line.startswith("SKIP ")]
    said = [str(fault) for _, fault in built.skipped]
    disc = built.write(mine)
    # The program also prints UIDs, which have no room in an answer.
    alike = len(skipped) == len(said) and all(line.startswith(fault) for line, fault in zip(skipped, said))
    notes = [line for line in output.splitlines() if line.startswith("NOTE ")]
    told = f" {len(built.left_out)} left out, {built.repeated} repeated" in errors and noted(built) == notes
    same = same_folders(out, mine) and alike and told and is_as_strict(some)
    checked = disc.check(keys=True, strict=True) == [] and run("check", "--keys", "--strict", mine)[0] == 0
    met = "index with notes" if notes else "index"
    tally.note(met, same and checked and disc.ID == set_id, some, output, errors, said, noted(built))


def merges(tally, sets):
    """`merge` of file-sets, and of the package."""
    some = tally.chance.sample(sets, tally.chance.randrange(1, 4))
    number = tally.cases
    out, mine = room / f"merge{number}", room / f"merged{number}"
    status, _, errors = run("merge", out, *some, "--id", "M")
    try:
        dicomdir.merge([dicomdir.read(one) for one in some], "M").write(mine)
        tally.note("merge", status == 0 and same_folders(out, mine), some, errors)
    except dicomdir.Fault as fault:
        tally.note("merge refused", status == 1 and fault.words in errors, errors, str(fault))


def paths_of(built):
    """The paths of the images, and then those of each file that is left out and of the one that is kept."""
    return [[path for path, _ in built.images], *([one.path, one.kept] for one in built.left_out)]


def discs(tally):
    """`merge` and `withdraw` of discs under each form of name: paths are those of their records, and what is written is
    what `merge` makes."""
    burnt = [dicomdir.FileSet.build(files).write(room / f"burnt{number}") for number, files in enumerate((
        [*EXAMPLES, *packaged_images()[::4]], [*variants()[::2], *packaged_images()[::6]]))]
    run("merge", room / "wanted", *(one.path for one in burnt))
    plain = dicomdir.merge(burnt)
    for form in range(8):
        folders = [room / f"shown{form}{number}" for number in range(len(burnt))]
        for one, folder in zip(burnt, folders):
            copy_shown(Path(one.path), folder, form)
        sets, mine = [dicomdir.read(folder) for folder in folders], room / f"mine{form}"
        shown = {old.path: new.path for one, other in zip(burnt, sets) for old, new in zip(one, other)}
        built = dicomdir.merge(sets)
        same = bool(built.left_out) and paths_of(built) == [[shown[path] for path in one] for one in paths_of(plain)]
        copies = [one.read() for one in built.write(mine)]
        same = same and [Path(path).read_bytes() for path, _ in built.images] == copies
        checked = same_folders(room / "wanted", mine) and run("check", "--keys", "--strict", mine)[0] == 0
        tally.note("merge of discs", same and checked, form, built.images, built.left_out)
        first, *others = sets[0]
        left = sets[0].withdraw([first.SOPInstanceUID])
        tally.note("withdraw of a disc", paths_of(left) == [[one.path for one in others]], form, left.images)
    away = dicomdir.merge([dicomdir.FileSet(burnt[0].data)])
    tally.note("without a folder", paths_of(away) == [["/".join(one.file_id) for one in burnt[0]]], away.images)


def withdraws(tally, folder):
    """`withdraw` of two images and of one that is not there."""
    disc = dicomdir.read(folder)
    uids = [image.SOPInstanceUID for image in disc][:2] + ["1.2.3.99"]
    out, mine = room / f"withdraw{tally.cases}", room / f"withdrawn{tally.cases}"
    status, _, errors = run("withdraw", out, folder, *uids)
    left = disc.withdraw(uids).write(mine)
    tally.note("withdraw", status == 0 and same_folders(out, mine) and left.withdrawn == sorted(uids), errors, uids)


def known_by_head(record):
    """The SHA-256 and the head of a record's file."""
    try:
        data = record.read()
    except dicomdir.Fault as fault:
        if fault.status == 92:
            return None
        raise OSError from fault
    return sha256(data).digest(), head_of(data)


def damages(tally, folder):
    """What is found of damaged files, by `check` and by the package."""
    damaged = room / f"damaged{tally.cases}"
    shutil.copytree(folder, damaged)
    disc, chance = dicomdir.read(damaged), tally.chance
    for image in disc:
        path, how = Path(image.path), chance.randrange(6)
        data = path.read_bytes()
        if how == 0:
            path.unlink()
        elif how == 1:
            path.write_bytes(data[:-1] + bytes([data[-1] ^ 1]))
        elif how == 2:
            path.unlink()
            path.mkdir()
        elif how == 3:
            path.write_bytes(EXAMPLES[0].read_bytes())
        elif how == 4:
            path.rename(path.with_name(path.name.lower() + ".;1"))
    for words, keys in ((["check"], False), (["check", "--keys"], True)):
        _, output, _ = run(*words, "--strict", damaged)
        lines = [line.split() for line in output.splitlines()]
        wanted = [" ".join(line[:2] if line[0] == "DIFFERS" else line) for line in lines]
        found = [str(one) for one in disc.check(keys, strict=True)]
        same = found == wanted or not found and wanted[0].startswith("OK ")
        by_head = [str(one) for one in disc.check(keys, strict=True, known=known_by_head)]
        tally.note(" ".join(words), same and by_head == found, wanted, found, by_head)


def refused(status, function, *words):
    """Does the call raise the fault of this number?"""
    try:
        function(*words)
    except dicomdir.Fault as fault:
        return fault.status == status and fault.path is not None
    return False


def refused_first(status, *label):
    """Is a wrong label refused before a file that is not there is opened?"""
    try:
        dicomdir.FileSet.build([room / "nowhere"], *label)
    except dicomdir.Fault as fault:
        return (fault.status, fault.path) == (status, None)
    return False


def variants():
    """Images with the UID of another one: other bytes, and another name of the patient."""
    made = []
    for number, path in enumerate(EXAMPLES):
        data = path.read_bytes()
        for kind, changed in enumerate((data[:-1] + bytes([data[-1] ^ 1]), data.replace(b"DOE^JOHN", b"ROE^JANE"))):
            made.append(room / f"variant{number}{kind}.dcm")
            made[-1].write_bytes(changed)
    return made


def refuses(tally):
    """Folders that are taken, links in the way, sources that change or are gone, a disk that is full."""
    source = room / "source.dcm"
    source.write_bytes(EXAMPLES[0].read_bytes())
    built = dicomdir.FileSet.build([source])
    folder = room / "refused"
    for name in "DICOMDIR", "dicomdir", "DICOMDIR.;1":
        (folder / name).mkdir(parents=True)
        tally.note("94", refused(94, built.write, folder), name)
        (folder / name).rmdir()
    (folder / "PT000001").symlink_to(room)
    tally.note("95", refused(95, built.write, folder), "a link")
    (folder / "PT000001").unlink()
    (folder / "PT000001/ST000001/SE000001").mkdir(parents=True)
    (folder / "PT000001/ST000001/SE000001/IM000001").symlink_to(room / "elsewhere")
    tally.note("94", refused(94, built.write, folder) and not (room / "elsewhere").exists(), "a link as a file")
    shutil.rmtree(folder)
    (room / "plain").write_bytes(b"")
    tally.note("95", refused(95, built.write, room / "plain/below") and refused(95, built.write, ""), "a file above")
    source.write_bytes(source.read_bytes()[:-1] + b"\xff")
    tally.note("97", refused(97, built.write, folder) and not (folder / "DICOMDIR").exists(), "a changed source")
    source.unlink()
    tally.note("71 and 72", refused_first(72, "x") and refused_first(71, "", "01"), "a wrong label")
    tally.note("92", refused(92, built.write, room / "absent"), "a source that is gone")
    tally.note("92", refused(92, dicomdir.FileSet.build, [source]), "a source that is not there")
    tally.note("93", refused(93, dicomdir.FileSet.build, [room]), "a folder")
    foreign = dicomdir.read(PACKAGED / "dicomdirtests/DICOMDIR")
    tally.note("61", refused(61, dicomdir.merge, [foreign]), "a directory of another program")
    tally.note("full", full(), "a disk that is full")


def full():
    """A file that may not grow: 96, and no DICOMDIR."""
    import resource
    import signal
    signal.signal(signal.SIGXFSZ, signal.SIG_IGN)
    built, folder = dicomdir.FileSet.build(EXAMPLES), room / "full"
    before = resource.getrlimit(resource.RLIMIT_FSIZE)
    resource.setrlimit(resource.RLIMIT_FSIZE, (100, before[1]))
    try:
        return refused(96, built.write, folder) and not (folder / "DICOMDIR").exists()
    finally:
        resource.setrlimit(resource.RLIMIT_FSIZE, before)


def main():
    tally = Tally("building", 3)
    files = [*EXAMPLES, *variants(), *packaged_images()[::4], TOP / "README.md", TOP / "examples/ct1.DICOMDIR"]
    for _ in range(40):
        builds(tally, files)
    sets = sorted(room.glob("index*"))
    for _ in range(15):
        merges(tally, sets)
    with_images = [one for one in sets if len(dicomdir.read(one))]
    for folder in with_images[:8]:
        withdraws(tally, folder)
        damages(tally, folder)
    discs(tally)
    refuses(tally)
    tally.end(15)


main()
