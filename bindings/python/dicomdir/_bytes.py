"""The functions of dicomdir.h over bytes, without files."""
from array import array
from functools import lru_cache
from io import BytesIO
from typing import Any, Callable, Dict, Iterable, Iterator, List, NamedTuple, Sequence, Tuple, Union

from ._calls import Answer, Input, Room, ask
from ._faults import Fault

Data = Union[bytes, bytearray, memoryview]
# No file of a file-set is longer.
LONGEST = 2 ** 32 - 1
# What is given of a file to `find_in_files`.
ABSENT, UNREADABLE, WHOLE, DIGEST, HEAD = range(5)
# The kind of a note on a file that is left out. The other kind names a Patient ID.
_LEFT_OUT = 1


def as_bytes(data: Data) -> bytes:
    """The same bytes, copied where somebody may change them. Raises TypeError for what is no bytes, as a number, and
    Fault: 39 FileTooLong."""
    view = memoryview(data)
    if view.nbytes > LONGEST:
        raise Fault(39)
    return data if type(data) is bytes else bytes(view)


def _asked(name: str, inputs: Sequence[Input], rooms: Sequence[Room], sizes: Callable[[Answer], Sequence[int]],
           lone: bool = False) -> Tuple[Answer, List[Any]]:
    status, answer, outs = ask(name, inputs, rooms, sizes, lone)
    if status:
        raise Fault(status, answer)
    return answer, outs


def _ended(texts: Iterable[bytes]) -> Tuple[bytes, "array[int]"]:
    """Texts one after the other, and where each ends."""
    ends: "array[int]" = array("Q")
    size, all_texts = 0, list(texts)
    for text in all_texts:
        size += len(text)
        ends.append(size)
    return b"".join(all_texts), ends


def _cut(text: bytes, ends: Iterable[int]) -> Iterator[bytes]:
    start = 0
    for end in ends:
        yield text[start:end]
        start = end


def listing(data: Data) -> str:
    """The text that `dicomdir list` prints of the DICOMDIR of any producer."""
    data = as_bytes(data)
    # A byte of withdrawn UIDs may have a line of 12.
    _, (text,) = _asked("list", [data], [Room("B", 1, 12 * len(data))], lambda answer: [answer.text])
    return text.decode("ascii")


class Table(NamedTuple):
    """A directory's records, four numbers each (offset, level, kind, in use), and their values at some tags."""
    rows: "array[int]"
    ends: "array[int]"
    text: bytes


def table(data: bytes, tags: Sequence[int]) -> Table:
    """A row for each record, and where the value of each ends at each tag, by rows. No tag stands there twice."""
    # A record has 52 bytes or more, and each value stands in the bytes, so that no end is more than LONGEST.
    width, most = len(tags), len(data) // 52
    _, (rows, ends, text) = _asked(
        "rows", [data, (array("I", tags), 1)],
        [Room("I", 4, most), Room("Q", 1, most * width, short=True), Room("B", 1, len(data))],
        lambda answer: [answer.rows, answer.rows * width, answer.text])
    return Table(rows, ends, text)


class Front(NamedTuple):
    """What a directory says before its records."""
    set_id: str
    uid: str
    withdrawn: List[str]
    unreached: int


def front(data: bytes) -> Front:
    """The File-set ID, the UID, withdrawn SOP Instance UIDs, and how many records no offset reaches."""
    _, (ends, text, unreached) = _asked(
        "front", [data], [Room("Q", 1, 3), Room("B", 1, len(data)), Room("Q", 1, 1)],
        lambda answer: [answer.rows, answer.text, 1], lone=True)
    set_id, uid, withdrawn = (value.decode("latin-1") for value in _cut(text, ends))
    return Front(set_id, uid, withdrawn.split("\\") if withdrawn else [], unreached[0])


@lru_cache(maxsize=4096)
def spellings(name: str) -> Tuple[str, ...]:
    """The names under which systems show a recorded name, in the order in which they are looked for (docs/DISCS.md)."""
    data = name.encode("ascii")
    _, (ends, text) = _asked("spellings", [data], [Room("Q", 1, 8), Room("B", 1, 8 * len(data) + 12)],
                             lambda answer: [answer.rows, answer.text])
    return tuple(shown.decode("ascii") for shown in _cut(text, ends))


class Found(NamedTuple):
    """What is found of a file: struct dicomdir_finding of dicomdir.h."""
    kind: int
    tag: int
    within: int
    cause: int


def find_in_files(data: bytes, files: Sequence[Tuple[int, int, bytes]], keys: bool, strict: bool) -> Iterator[Found]:
    """What `dicomdir check` finds of files: of each the number of its record, what is given of it, and the bytes."""
    contents, ends = _ended(content for _, _, content in files)
    given = array("Q", (number for (row, kind, _), end in zip(files, ends) for number in (row, end, kind)))
    _, (found,) = _asked("findings", [data, (given, 3), contents, bool(keys), bool(strict)],
                         [Room("I", 4, len(files))], lambda answer: [answer.rows])
    return (Found(*found[at:at + 4]) for at in range(0, len(found), 4))


def of_image(data: Data) -> bytes:
    """The directory of one image file, to give to `merge`."""
    # Each of its twelve keys has at most 1,024 bytes.
    _, (text,) = _asked("of_image", [as_bytes(data)], [Room("B", 1, 16384)], lambda answer: [answer.text])
    return text


class Made(NamedTuple):
    """A DICOMDIR, and for each of its images the number of the input that has its file, and the File ID there."""
    directory: bytes
    picks: List[Tuple[int, str]]


def _text(text: str) -> bytes:
    return text.encode("utf-8", "replace")


def _made(name: str, inputs: Sequence[Any], size: int, more: int, set_id: str, uid: str) -> Made:
    """What is made of directories of this size, and of UIDs with this many bytes more."""
    most = size // 200
    _, (text, sets, ends, files) = _asked(
        name, [*inputs, _text(set_id), _text(uid)],
        [Room("B", 1, size + size // 5 + more + 1024), Room("Q", 1, most), Room("Q", 1, most), Room("B", 1, size // 3)],
        lambda answer: [answer.text, answer.rows, answer.rows, answer.files])
    return Made(text, [(number, file.decode("ascii")) for number, file in zip(sets, _cut(files, ends))])


class Joined:
    """Directories one after the other, and where each ends. Each is copied as it is added, and held once."""

    def __init__(self, directories: Iterable[Data] = ()) -> None:
        self._held = BytesIO()
        self.ends: "array[int]" = array("Q")
        for directory in directories:
            self.add(directory)

    def add(self, directory: Data) -> None:
        """Adds one more."""
        self._held.write(as_bytes(directory))
        self.ends.append(self._held.tell())

    @property
    def data(self) -> bytes:
        """All their bytes, which are no copy."""
        return self._held.getvalue()


def _joined(directories: Union[Joined, Iterable[Data]]) -> Joined:
    return directories if isinstance(directories, Joined) else Joined(directories)


def merge(directories: Union[Joined, Iterable[Data]], set_id: str = "", uid: str = "") -> Made:
    """The directory of the images of all these, as `dicomdir merge` makes it."""
    joined = _joined(directories)
    data = joined.data
    return _made("merge", [data, (joined.ends, 1)], len(data), 0, set_id, uid)


class Notes(NamedTuple):
    """What a merge leaves out: of each file and of the one that is kept the number of the input and the File ID, and
    the SOP Instance UID of both. The Patient IDs with several names, and how many images repeat one that is kept."""
    left_out: List[Tuple[Tuple[int, str], Tuple[int, str], str]]
    names: Dict[str, List[str]]
    repeated: int


def notes(directories: Union[Joined, Iterable[Data]], set_id: str = "", uid: str = "") -> Notes:
    """What `merge` of the same directories leaves out."""
    joined = _joined(directories)
    data = joined.data
    _, (rows, text_ends, text, (_, _, _, repeated, _)) = _asked(
        "notes", [data, (joined.ends, 1), _text(set_id), _text(uid)],
        [Room("Q", 4, len(data) // 200), Room("Q", 1, len(data) // 60), Room("B", 1, len(data)), Room("Q", 5, 1)],
        lambda answer: [answer.rows, answer.files, answer.text, 1], lone=True)
    made, texts = Notes([], {}, repeated), _cut(text, text_ends)
    for kind, number, kept, names in zip(rows[::4], rows[1::4], rows[2::4], rows[3::4]):
        first, *others = (next(texts).decode("latin-1") for _ in range(3 if kind == _LEFT_OUT else names + 1))
        if kind == _LEFT_OUT:
            made.left_out.append(((number, first), (kept, others[0]), others[1]))
        else:
            made.names[first] = others
    return made


def withdraw(directory: Data, uids: Iterable[str], set_id: str = "", uid: str = "") -> Made:
    """The directory without the images of these SOP Instance UIDs, as `dicomdir withdraw` makes it."""
    directory = as_bytes(directory)
    texts, ends = _ended(map(_text, uids))
    return _made("withdraw", [directory, texts, (ends, 1)], len(directory), len(texts) + len(ends), set_id, uid)
