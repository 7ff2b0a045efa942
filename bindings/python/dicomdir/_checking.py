"""Reads the files of a file-set, and has the library say what is found of them."""
from hashlib import sha256
from typing import Iterable, Iterator, List, Optional, Tuple, Union

from ._bytes import ABSENT, DIGEST, HEAD, LONGEST, UNREADABLE, WHOLE, Data, Found, as_bytes, find_in_files
from ._faults import Fault
from ._opening import open_below, parts_of, pieces, read_whole

# The library reads the directory anew for each call, so a call gets files of this many bytes.
_BATCH = 64 << 20
# What a caller knows of a file: all its bytes, its SHA-256 with its head or without, or that it can't be opened.
Known = Union[None, Data, Tuple[Data, Optional[Data]]]
# The number of a record, in what form its file is given, and the bytes.
_File = Tuple[int, int, bytes]


def findings(directory: bytes, files: Iterable[_File], keys: bool, strict: bool) -> Iterator[Tuple[int, Found]]:
    """What is found of these files, each by the number of its record. A long one is given alone, so that its bytes are
    not copied, and is not held while the next one is read."""
    batch: List[_File] = []
    size = 0
    for file in files:
        length = len(file[2])
        if size + length > _BATCH:
            yield from _found(directory, batch, keys, strict)
            size = 0
        batch.append(file)
        size += length
        del file
        if size > _BATCH:
            yield from _found(directory, batch, keys, strict)
            size = 0
    yield from _found(directory, batch, keys, strict)


def as_known(row: int, given: Known) -> _File:
    """The file of a record, as a caller knows it."""
    if given is None:
        return row, ABSENT, b""
    if not isinstance(given, tuple):
        return (row, WHOLE, as_bytes(given)) if memoryview(given).nbytes <= LONGEST else (row, UNREADABLE, b"")
    digest, head = given
    if len(digest) != 32:
        raise ValueError("a SHA-256 has 32 bytes")
    return (row, DIGEST, as_bytes(digest)) if head is None else (row, HEAD, as_bytes(digest) + as_bytes(head))


def in_folder(folder: str, row: int, file_id: bytes, whole: bool) -> _File:
    """The file of a record, read by its File ID."""
    return (row, *_given(folder, file_id, whole))


def _found(directory: bytes, batch: List[_File], keys: bool, strict: bool) -> List[Tuple[int, Found]]:
    """What is found of a batch, which is emptied."""
    answers = find_in_files(directory, batch, keys, strict) if batch else ()
    found = [(row, one) for (row, _, _), one in zip(batch, answers) if one.kind]
    batch.clear()
    return found


def _given(folder: str, file_id: bytes, whole: bool) -> Tuple[int, bytes]:
    parts = parts_of(file_id)
    if parts is None:
        return ABSENT, b""
    try:
        opened = open_below(folder, parts)
    except OSError:
        return ABSENT, b""
    try:
        return (WHOLE, read_whole(opened, folder)) if whole else (DIGEST, _digest_of(opened))
    except (OSError, Fault):
        return UNREADABLE, b""


def _digest_of(opened: int) -> bytes:
    digest = sha256()
    for piece in pieces(opened):
        digest.update(piece)
    return digest.digest()
