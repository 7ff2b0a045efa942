"""Opens files of a file-set as `dicomdir` does: under each name that systems show of them on a disc. It follows no
link below the folder."""
import errno
import os
import re
import stat
from io import BytesIO
from typing import Iterator, List, Optional, Sequence

from ._bytes import LONGEST, spellings
from ._faults import Fault

_FLAGS = os.O_RDONLY | os.O_CLOEXEC | os.O_NOFOLLOW
_FOLDER = _FLAGS | os.O_DIRECTORY
_PIECE = 1 << 20
# What nearly all are (PS3.10 section 8.2).
_FILE_ID = re.compile(rb"[A-Z0-9_]+(?:\\[A-Z0-9_]+)*")


def parts_of(file_id: bytes) -> Optional[List[str]]:
    """The parts of a File ID, and None where it could lead out of the folder, or is no text."""
    parts = file_id.decode("ascii", "replace").split("\\")
    if _FILE_ID.fullmatch(file_id) or all(map(_is_plain, parts)):
        return parts
    return None


def _is_plain(part: str) -> bool:
    return part not in ("", ".", "..") and "/" not in part and part.isascii() and part.isprintable()


def _first_held(name: str, folder: str, at: Optional[int] = None) -> str:
    """The first of the names under which systems show a recorded name that is there, and is no link: the name in the
    folder, which is below the descriptor `at`. Raises OSError."""
    refused: OSError = FileNotFoundError(errno.ENOENT, os.strerror(errno.ENOENT), name)
    for shown in spellings(name):
        try:
            if not stat.S_ISLNK(os.stat(os.path.join(folder, shown), dir_fd=at, follow_symlinks=False).st_mode):
                return shown
        except OSError as error:
            if refused.errno == errno.ENOENT:
                refused = error
    raise refused


def path_below(folder: Optional[str], parts: Sequence[str]) -> str:
    """The path of the file at these parts below the folder: as a system shows it, or as recorded where it is not there
    and where there is no folder."""
    if folder is not None:
        path = folder
        try:
            for part in parts:
                path = os.path.join(path, _first_held(part, path))
            return path
        except OSError:
            pass
    return os.path.join(folder or "", *parts)


def open_below(folder: str, parts: Sequence[str]) -> int:
    """A descriptor of the plain file at these parts below the folder. Raises OSError."""
    at = os.open(folder or ".", os.O_RDONLY | os.O_CLOEXEC | os.O_DIRECTORY)
    for number, part in enumerate(parts):
        last = number == len(parts) - 1
        try:
            below = os.open(_first_held(part, "", at), _FLAGS | os.O_NONBLOCK if last else _FOLDER, dir_fd=at)
        finally:
            os.close(at)
        at = below
    return _plain(at)


def open_source(path: str) -> int:
    """A descriptor of a plain file. Raises OSError: a pipe is not waited for."""
    return _plain(os.open(path, os.O_RDONLY | os.O_CLOEXEC | os.O_NONBLOCK))


def _plain(opened: int) -> int:
    mode = os.fstat(opened).st_mode
    if stat.S_ISREG(mode) or stat.S_ISDIR(mode):
        return opened
    os.close(opened)
    raise OSError(errno.ENXIO, "not a plain file")


def pieces(opened: int) -> Iterator[bytes]:
    """The bytes of a descriptor, which is closed at the end. Raises OSError, and Fault: 39 FileTooLong, before the
    first piece where the file has that length already."""
    try:
        length, done = os.fstat(opened).st_size, 0
        while max(length, done) <= LONGEST:
            piece = os.read(opened, _PIECE)
            if not piece:
                return
            done += len(piece)
            yield piece
        raise Fault(39)
    finally:
        os.close(opened)


def read_whole(opened: int, path: str) -> bytes:
    """All bytes of a descriptor, which is closed. They are held once. Raises Fault: 93 Unread where a read fails, and
    39 FileTooLong."""
    held = BytesIO()
    try:
        for piece in pieces(opened):
            held.write(piece)
    except OSError as error:
        raise Fault(93, path=path) from error
    except Fault as fault:
        raise fault.with_path(path) from None
    return held.getvalue()


def read_source(path: str) -> bytes:
    """All bytes of a file, as `read_whole`: 92 Absent where it can't be opened."""
    try:
        opened = open_source(path)
    except (OSError, ValueError) as error:
        raise Fault(92, path=path) from error
    return read_whole(opened, path)


def read_member(folder: str, parts: Sequence[str]) -> bytes:
    """All bytes of a file of a file-set, as `read_whole`: 92 Absent where it can't be opened."""
    path = os.path.join(folder, *parts)
    try:
        opened = open_below(folder, parts)
    except (OSError, ValueError) as error:
        raise Fault(92, path=path) from error
    return read_whole(opened, path)
