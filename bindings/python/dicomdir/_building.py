"""New file-sets: their directories are made by the library, and their files are copied here."""
import os
from copy import copy
from functools import cached_property
from hashlib import sha256
from typing import Any, Iterable, Iterator, List, NamedTuple, Optional, Sequence, Tuple, Union

from . import _bytes
from ._bytes import DIGEST
from ._faults import Fault
from ._opening import open_below, open_source, parts_of, path_below, pieces, read_source
from ._records import FileSet, Record

Path = Union[str, "os.PathLike[str]"]
_FOLDER = os.O_RDONLY | os.O_DIRECTORY | os.O_CLOEXEC
_NEW = os.O_WRONLY | os.O_CREAT | os.O_EXCL | os.O_NOFOLLOW | os.O_CLOEXEC


class Given(NamedTuple):
    """A file that is copied, by the path that was given."""
    given: str

    def path(self) -> str:
        """Its path."""
        return self.given

    def open(self) -> int:
        """A descriptor of it. Raises OSError."""
        return open_source(self.given)


class Member(NamedTuple):
    """A file of a file-set that is copied, by its folder and File ID."""
    folder: Optional[str]
    file_id: str

    def path(self) -> str:
        """Its path, as `Record.path` gives it."""
        return path_below(self.folder, self.file_id.split("\\"))

    def open(self) -> int:
        """A descriptor of it. Raises OSError."""
        if self.folder is None:
            raise FileNotFoundError("the file-set was read from bytes")
        return open_below(self.folder, self.file_id.split("\\"))


Source = Union[Given, Member]


class LeftOut(NamedTuple):
    """A file that is left out, since other bytes are kept of its instance."""
    path: str
    kept: str
    uid: str


class Built:
    """A file-set that is not written yet.

    `directory` has the bytes of its DICOMDIR, and `images` a (path, record) for each image. What `index` and `merge`
    say beside that: `skipped` has a (path, fault) for each file that is no image to `build`, and `left_out` a
    (path, kept, uid) for each file of whose instance other bytes are kept. `repeated` counts the files that repeat one
    that is kept, and `names` has the names of each Patient ID that has several. Paths are as given to
    `build`, or as `Record.path` of the file-sets gives them.
    """

    def __init__(self, made: _bytes.Made, sources: Sequence[Source], skipped: List[Tuple[str, Fault]],
                 left_out: List[LeftOut], notes: _bytes.Notes) -> None:
        self.directory, self.skipped, self._sources = made.directory, skipped, sources
        self.left_out, self.repeated, self.names = left_out, notes.repeated, notes.names
        self._fileset = FileSet(made.directory)
        if len(self._fileset) != len(sources):
            raise SystemError("libdicomdir picked other files than its directory names")

    @cached_property
    def images(self) -> List[Tuple[str, Record]]:
        """A (path, record) for each image. The paths are looked for when this is first asked for."""
        return [(source.path(), record) for source, record in zip(self._sources, self._fileset)]

    def write(self, folder: Path) -> FileSet:
        """Copies the images to the folder, which is made where it is not there, and then writes its DICOMDIR.

        Only new files are opened, and no link is followed below the folder. Each copy's SHA-256 is compared with its
        record. Copies and folders are stored before the DICOMDIR is begun, and it is stored at the end. Raises Fault:
        94 Create where the folder has a DICOMDIR or the name of a file is taken, 95 Folder, 96 Unsent, 97 Changed
        where a source is no longer what it was, and 92 Absent or 93 Unread of a source. What was copied before stays.
        """
        top = os.fspath(folder)
        _make_folder(top)
        _refuse_taken(top)
        at = _open_folder(top)
        try:
            digests = self._copy_all(top, at)
            for source, changed in zip(self._sources, _changed(self._fileset, digests)):
                if changed:
                    raise Fault(97, path=source.path())
            _write_new(at, "DICOMDIR", os.path.join(top, "DICOMDIR"), self.directory)
            _store(at, top)
        finally:
            os.close(at)
        # It shares what is held of the directory.
        written = copy(self._fileset)
        written.path = top
        return written

    def _copy_all(self, top: str, at: int) -> List[bytes]:
        """The digest of each copy. Images come in the order of their folders, each of which is stored as it is left."""
        digests, opened = [], _Folders(top, at)
        try:
            for source, record in zip(self._sources, self._fileset):
                parts = parts_of(record.raw("ReferencedFileID")) or []
                below = opened.enter(parts[:-1])
                digests.append(_copy(source, below, parts[-1], os.path.join(top, *parts)))
            opened.enter([])
            _store(at, top)
        finally:
            opened.leave_all()
        return digests


class _Folders:
    """The folders below the top that are open: a path of them."""

    def __init__(self, top: str, at: int) -> None:
        self._top, self._at = top, at
        self._open: List[Tuple[str, int]] = []

    def enter(self, names: List[str]) -> int:
        """A descriptor of the folder at these names, which is made where it is not there."""
        shared = 0
        while shared < min(len(names), len(self._open)) and self._open[shared][0] == names[shared]:
            shared += 1
        while len(self._open) > shared:
            self._leave()
        for name in names[shared:]:
            path = self._path(name)
            above = self._open[-1][1] if self._open else self._at
            try:
                try:
                    os.mkdir(name, dir_fd=above)
                except FileExistsError:
                    pass
                opened = os.open(name, _FOLDER | os.O_NOFOLLOW, dir_fd=above)
            except OSError as error:
                raise Fault(95, path=path) from error
            self._open.append((name, opened))
        return self._open[-1][1] if self._open else self._at

    def _path(self, *more: str) -> str:
        return os.path.join(self._top, *(name for name, _ in self._open), *more)

    def _leave(self) -> None:
        path = self._path()
        _, opened = self._open.pop()
        try:
            _store(opened, path)
        finally:
            os.close(opened)

    def leave_all(self) -> None:
        """Closes all that is open, where the work has failed."""
        while self._open:
            os.close(self._open.pop()[1])


def _make_folder(path: str) -> None:
    """Makes a folder and those above it that are not there, and stores their names: 95 Folder."""
    if os.path.isdir(path):
        return
    above = os.path.dirname(path.rstrip("/"))
    try:
        if above and not os.path.isdir(above):
            _make_folder(above)
        os.mkdir(path)
        below = os.open(above or ".", _FOLDER)
    except OSError as error:
        raise Fault(95, path=path) from error
    try:
        _store(below, above or ".")
    finally:
        os.close(below)


def _open_folder(path: str) -> int:
    try:
        return os.open(path, _FOLDER)
    except OSError as error:
        raise Fault(95, path=path) from error


def _refuse_taken(folder: str) -> None:
    for name in _bytes.spellings("DICOMDIR"):
        if os.path.lexists(os.path.join(folder, name)):
            raise Fault(94, path=os.path.join(folder, "DICOMDIR"))


def _store(opened: int, path: str) -> None:
    try:
        os.fsync(opened)
    except OSError as error:
        raise Fault(96, path=path) from error


def _create(below: int, name: str, path: str) -> int:
    try:
        return os.open(name, _NEW, 0o666, dir_fd=below)
    except OSError as error:
        raise Fault(94, path=path) from error


def _send(opened: int, data: bytes, path: str) -> None:
    view = memoryview(data)
    try:
        while view:
            view = view[os.write(opened, view):]
    except OSError as error:
        raise Fault(96, path=path) from error


def _write_new(below: int, name: str, path: str, data: bytes) -> None:
    opened = _create(below, name, path)
    try:
        _send(opened, data, path)
        _store(opened, path)
    finally:
        os.close(opened)


def _copy(source: Source, below: int, name: str, path: str) -> bytes:
    """The SHA-256 of the bytes that were copied."""
    try:
        old = source.open()
    except (OSError, ValueError) as error:
        raise Fault(92, path=source.path()) from error
    try:
        new = _create(below, name, path)
    except Fault:
        os.close(old)
        raise
    digest = sha256()
    try:
        for piece in pieces(old):
            digest.update(piece)
            _send(new, piece, path)
        _store(new, path)
    except OSError as error:
        raise Fault(93, path=source.path()) from error
    except Fault as fault:
        raise (Fault(97, path=source.path()) if fault.status == 39 else fault) from fault.__cause__
    finally:
        os.close(new)
    return digest.digest()


def _changed(fileset: FileSet, digests: List[bytes]) -> Iterator[bool]:
    """Whether each copy is another file than its record says, by the library."""
    files = [(record.row, DIGEST, digest) for record, digest in zip(fileset, digests)]
    return (found.kind != 0 for found in (_bytes.find_in_files(fileset.data, files, False, True) if files else ()))


def build(paths: Iterable[Path], set_id: str, uid: str, strict: bool) -> Built:
    """What `dicomdir index` makes of image files; those that it would skip are skipped. Raises Fault: 71 and 72 of
    `uid` and `set_id` before a file is opened, 92 Absent and 93 Unread of a path, 41 to 43 where the images have no
    directory, and with `strict` 98 Strict where something is skipped or noted."""
    asked = listed(paths, "build takes a list of paths")
    _bytes.merge([], set_id, uid)
    parts = _bytes.Joined()
    kept: List[Given] = []
    skipped: List[Tuple[str, Fault]] = []
    for path in map(os.fsdecode, asked):
        try:
            parts.add(_bytes.of_image(read_source(path)))
            kept.append(Given(path))
        except Fault as fault:
            if not 31 <= fault.status <= 39:
                raise fault.with_path(path) from fault.__cause__
            # A new one, as a fault that was raised keeps the bytes.
            skipped.append((path, Fault(fault.status, fault)))
    made, notes = _bytes.merge(parts, set_id, uid), _bytes.notes(parts, set_id, uid)
    del parts
    if strict and (skipped or notes.left_out or notes.names):
        raise Fault(98)
    left_out = [LeftOut(kept[file].path(), kept[other].path(), instance)
                for (file, _), (other, _), instance in notes.left_out]
    return Built(made, [kept[number] for number, _ in made.picks], skipped, left_out, notes)


def listed(given: Iterable[Any], wanted: str) -> List[Any]:
    """A list, and not one text, whose letters Python would give one by one: TypeError."""
    if isinstance(given, (str, bytes, os.PathLike)):
        raise TypeError(f"{wanted}, and not {given!r}")
    return list(given)


def _of_sets(made: _bytes.Made, filesets: List[FileSet], notes: _bytes.Notes) -> Built:
    def member(place: Tuple[int, str]) -> Member:
        return Member(filesets[place[0]].path, place[1])
    left_out = [LeftOut(member(file).path(), member(other).path(), instance)
                for file, other, instance in notes.left_out]
    return Built(made, [member(place) for place in made.picks], [], left_out, notes)


def withdraw(fileset: FileSet, uids: Iterable[str], set_id: str, uid: str) -> Built:
    """What `dicomdir withdraw` makes of a file-set."""
    asked = listed(uids, "withdraw takes a list of SOP Instance UIDs")
    made = _bytes.withdraw(fileset.data, asked, set_id, uid)
    return _of_sets(made, [fileset], _bytes.notes([made.directory]))


def merge(filesets: Iterable[FileSet], set_id: str = "", uid: str = "") -> Built:
    """The file-set of the images of several, as `dicomdir merge` makes it. Nothing is written before `write`.

    Raises Fault: 51 to 65 of a file-set, which is number `source`; 41 to 43, 71 and 72.
    """
    sets = listed(filesets, "merge takes a list of file-sets")
    if not all(isinstance(one, FileSet) for one in sets):
        raise TypeError("merge takes a list of file-sets, as `read` gives them")
    try:
        data = _bytes.Joined(one.data for one in sets)
        return _of_sets(_bytes.merge(data, set_id, uid), sets, _bytes.notes(data, set_id, uid))
    except Fault as fault:
        if not 51 <= fault.status <= 65:
            raise
        raise fault.with_path(sets[fault.source].path or f"file-set {fault.source}") from None
