"""Directories as records, and file-sets as folders that have one."""
import os
from array import array
from bisect import bisect_left
from functools import lru_cache
from typing import (TYPE_CHECKING, Any, Callable, Dict, Iterable, Iterator, List, NamedTuple, Optional, Sequence, Tuple,
                    Union)

from . import _bytes
from ._bytes import Data
from ._faults import FAULTS, Fault, tag_text
from ._opening import parts_of, path_below, read_member, read_source
from ._text import printable, text_of

if TYPE_CHECKING:
    from ._building import Built
    from ._checking import Known

# The elements that are read at once. Others are read when they are asked for.
KEYWORDS: Dict[str, int] = {
    "DirectoryRecordType": 0x00041430, "ReferencedFileID": 0x00041500, "SpecificCharacterSet": 0x00080005,
    "PatientID": 0x00100020, "PatientName": 0x00100010, "PatientBirthDate": 0x00100030, "PatientSex": 0x00100040,
    "StudyInstanceUID": 0x0020000D, "StudyDate": 0x00080020, "StudyTime": 0x00080030, "StudyDescription": 0x00081030,
    "StudyID": 0x00200010, "AccessionNumber": 0x00080050, "SeriesInstanceUID": 0x0020000E, "Modality": 0x00080060,
    "SeriesNumber": 0x00200011, "SeriesDescription": 0x0008103E, "InstanceNumber": 0x00200013,
    "ReferencedSOPClassUIDInFile": 0x00041510, "ReferencedSOPInstanceUIDInFile": 0x00041511,
    "ReferencedTransferSyntaxUIDInFile": 0x00041512}
_TYPE, _FILE, _CHARSET = 0x00041430, 0x00041500, 0x00080005
# What an image is asked for by the names of its own elements (0008,0018), (0008,0016) and (0002,0010).
_TAGS = {**KEYWORDS, "SOPInstanceUID": 0x00041511, "SOPClassUID": 0x00041510, "TransferSyntaxUID": 0x00041512}
# Of so many different values of an element, the last ones, each is held as one text.
_SHARED = 128
_FINDINGS = ("", "BADID", "MISSING", "UNREADABLE", "DIFFERS", "MISLABELLED", "MISLABELLED", "NODIGEST")


def tag_of(name: str) -> int:
    """The tag of a keyword: one of those above, or any that pydicom knows, where it is there."""
    if name in _TAGS:
        return _TAGS[name]
    if name[:1].isupper():
        try:
            from pydicom.datadict import tag_for_keyword
        except ImportError:
            pass
        else:
            tag = tag_for_keyword(name)
            if tag is not None:
                return int(tag)
    raise AttributeError(f"{name} is no keyword of an element that is known here")


class Finding(NamedTuple):
    """What `FileSet.check` finds of a record's file, in a word of docs/FAULTS.md, such as MISSING or DIFFERS."""
    record: "Record"
    kind: str
    # The tag that is another one in the file, or the fault of a file that is no DICOM file.
    words: str

    def __str__(self) -> str:
        name = self.record.raw("ReferencedFileID").decode("ascii", "replace")
        said = str(self.record.offset) if self.kind == "BADID" else printable(name)
        return " ".join(word for word in (self.kind, said, self.words) if word)


class Record:
    """A directory record.

    Elements are attributes by their keywords: text without padding, and None where there is no value. What a record
    does not have, it has from the records above it: an image has the PatientID of its patient.
    """

    __slots__ = ("fileset", "row")

    def __init__(self, fileset: "FileSet", row: int) -> None:
        self.fileset, self.row = fileset, row

    def __getattr__(self, name: str) -> Optional[str]:
        tag = tag_of(name)
        return self.fileset._column(tag)[self.row]

    def get(self, keyword: str, default: Any = None) -> Any:
        """The text at a keyword, its own or from above, as the attribute of that name: `default` where none has it."""
        value = self.fileset._column(tag_of(keyword))[self.row]
        return default if value is None else value

    def __eq__(self, other: object) -> bool:
        return isinstance(other, Record) and other.fileset is self.fileset and other.row == self.row

    def __hash__(self) -> int:
        return hash((id(self.fileset), self.row))

    def raw(self, element: Union[str, int]) -> bytes:
        """The bytes that this record itself has at a keyword or tag, without padding: none where it has no value."""
        return self.fileset._own(self.row, element if isinstance(element, int) else tag_of(element))

    @property
    def offset(self) -> int:
        """Where it starts in the directory: the offset of its Item tag."""
        return self.fileset._rows[4 * self.row]

    @property
    def level(self) -> int:
        """How many records stand above it."""
        return self.fileset._rows[4 * self.row + 1]

    @property
    def in_use(self) -> bool:
        """Is it in use (0004,1410)? A record that is not is to be ignored."""
        return self.fileset._rows[4 * self.row + 3] == 1

    @property
    def record_type(self) -> str:
        """Its type (0004,1430), such as PATIENT or IMAGE."""
        return self.raw(_TYPE).decode("latin-1")

    @property
    def parent(self) -> Optional["Record"]:
        """The record above it."""
        above = self.fileset._above[self.row]
        return Record(self.fileset, above) if above >= 0 else None

    @property
    def children(self) -> List["Record"]:
        """The records right below it, of any type, in use or not."""
        return self.fileset._below(self.row)

    @property
    def studies(self) -> List["Record"]:
        """The STUDY records right below it that are in use."""
        return self._used("STUDY")

    @property
    def series(self) -> List["Record"]:
        """The SERIES records right below it that are in use."""
        return self._used("SERIES")

    @property
    def images(self) -> List["Record"]:
        """The IMAGE records right below it that are in use."""
        return self._used("IMAGE")

    def _used(self, kind: str) -> List["Record"]:
        return [one for one in self.children if one.in_use and one.record_type == kind]

    @property
    def file_id(self) -> Tuple[str, ...]:
        """The parts of its File ID (0004,1500), as recorded: none where it has no File ID."""
        file_id = self.raw(_FILE)
        return tuple(file_id.decode("ascii", "replace").split("\\")) if file_id else ()

    def _parts(self) -> Optional[List[str]]:
        file_id = self.raw(_FILE)
        return parts_of(file_id) if file_id else None

    @property
    def path(self) -> Optional[str]:
        """The path of its file, under the names that a system shows, and as recorded where no such file is there; None
        where it has no File ID, or one that leads elsewhere."""
        parts = self._parts()
        return None if parts is None else path_below(self.fileset.path, parts)

    def read(self) -> bytes:
        """The bytes of its file, also where a system shows it under another name.

        Raises Fault: 92 Absent where it can't be opened, 93 Unread where a read fails, 39 FileTooLong.
        """
        parts = self._parts()
        if parts is None:
            raise Fault(92)
        return read_member(self.fileset._folder(), parts)

    def load(self) -> Any:
        """Its file, as pydicom's Dataset."""
        from ._pydicom import file
        return file(self.read())

    def dataset(self) -> Any:
        """All its own elements, with sequences, as pydicom's Dataset."""
        from ._pydicom import item
        return item(self.fileset.data, self.offset)

    def __repr__(self) -> str:
        return printable(f"<{self.record_type} at {self.offset}: {self.path or self.PatientID}>")


class FileSet:
    """The file-set of a DICOMDIR of any producer. Iterating gives the records in use that name a file."""

    def __init__(self, data: Data, path: Optional[str] = None) -> None:
        self.data, self.path = _bytes.as_bytes(data), path
        tags = list(KEYWORDS.values())
        table = _bytes.table(self.data, tags)
        self._rows = table.rows
        self._raw: Dict[int, Tuple["array[int]", bytes, int, int]] = {
            tag: (table.ends, table.text, len(tags), place) for place, tag in enumerate(tags)}
        self._texts: Dict[int, List[Optional[str]]] = {}
        self._front: Optional[_bytes.Front] = None
        self._climb()
        self._files = array("I", (row for row, (start, end) in enumerate(self._spans(_FILE))
                                  if start < end and self._rows[4 * row + 3]))

    def _climb(self) -> None:
        """Finds for each row the one above it, and the one after all below it."""
        levels = self._rows[1::4]
        self._above: "array[int]" = array("i", [-1]) * len(levels)
        self._after: "array[int]" = array("i", [len(levels)]) * len(levels)
        path: List[int] = []
        for row, level in enumerate(levels):
            while len(path) > level:
                self._after[path.pop()] = row
            if path:
                self._above[row] = path[-1]
            path.append(row)

    def _below(self, row: int) -> List[Record]:
        end, at, found = (self._after[row] if row >= 0 else len(self._after)), row + 1, []
        while at < end:
            found.append(Record(self, at))
            at = self._after[at]
        return found

    def _read_values(self, tag: int) -> None:
        table = _bytes.table(self.data, [tag])
        self._raw[tag] = (table.ends, table.text, 1, 0)

    def _own(self, row: int, tag: int) -> bytes:
        """The bytes of the value of a record itself."""
        if tag not in self._raw:
            self._read_values(tag)
        ends, text, width, place = self._raw[tag]
        at = row * width + place
        return text[ends[at - 1] if at else 0:ends[at]]

    def _spans(self, tag: int) -> Iterator[Tuple[int, int]]:
        """Where the value of each record itself begins and ends, at a tag that is read."""
        ends, _, width, place = self._raw[tag]
        starts = ends[place - 1::width] if place else array("I", [0]) + ends[width - 1:-1:width]
        return zip(starts, ends[place::width])

    def _column(self, tag: int) -> List[Optional[str]]:
        """The text of each record at a tag, its own or from above."""
        if tag not in self._texts:
            if tag not in self._raw:
                self._read_values(tag)
            column: List[Optional[str]] = [None] * len(self._above)
            text, shared = self._raw[tag][1], lru_cache(_SHARED)(text_of)
            for row, (above, (start, end)) in enumerate(zip(self._above, self._spans(tag))):
                if start < end:
                    column[row] = shared(text[start:end], self._own(row, _CHARSET))
                elif above >= 0:
                    column[row] = column[above]
            self._texts[tag] = column
        return self._texts[tag]

    def _folder(self) -> str:
        if self.path is None:
            raise Fault(92)
        return self.path

    def _told(self) -> _bytes.Front:
        if self._front is None:
            self._front = _bytes.front(self.data)
        return self._front

    @property
    def ID(self) -> str:
        """The File-set ID (0004,1130), without padding."""
        return self._told().set_id

    @property
    def UID(self) -> str:
        """The UID of the file-set (0002,0003)."""
        return self._told().uid

    @property
    def withdrawn(self) -> List[str]:
        """The SOP Instance UIDs that are withdrawn for good."""
        return self._told().withdrawn

    @property
    def unreached(self) -> int:
        """How many records no offset reaches."""
        return self._told().unreached

    @property
    def records(self) -> List[Record]:
        """All records, depth first, in use or not."""
        return [Record(self, row) for row in range(len(self._after))]

    @property
    def roots(self) -> List[Record]:
        """The records with none above them, of any type, in use or not."""
        return self._below(-1)

    @property
    def patients(self) -> List[Record]:
        """The PATIENT records that are in use. Their studies are `.studies`, then `.series` and `.images`."""
        return [one for one in self.roots if one.in_use and one.record_type == "PATIENT"]

    def __len__(self) -> int:
        return len(self._files)

    def __iter__(self) -> Iterator[Record]:
        return (Record(self, row) for row in self._files)

    def __repr__(self) -> str:
        used = [one.record_type for one in self.records if one.in_use]
        return printable(f"<FileSet {self.ID or 'without ID'}: {used.count('PATIENT')} patients, "
                         f"{used.count('STUDY')} studies, {used.count('SERIES')} series, {len(self)} files>")

    def __contains__(self, record: object) -> bool:
        if not isinstance(record, Record) or record.fileset is not self:
            return False
        at = bisect_left(self._files, record.row)
        return at < len(self._files) and self._files[at] == record.row

    def find(self, load: bool = False, **keys: Any) -> List[Record]:
        """The records with files that have these values, by keyword: find(PatientID="P1", Modality="CT").

        Values are compared as text. With `load`, what no record has is compared with the files, by pydicom.
        """
        columns = [(name, self._column(tag_of(name)), str(value)) for name, value in keys.items()]
        return [Record(self, row) for row in self._files
                if all(column[row] == value or (load and column[row] is None and self._loaded(row, name) == value)
                       for name, column, value in columns)]

    def _loaded(self, row: int, name: str) -> Optional[str]:
        from ._pydicom import text_in
        return text_in(Record(self, row).read(), name)

    def find_values(self, elements: Union[str, Sequence[str]], instances: Optional[Iterable[Record]] = None
                    ) -> Union[List[Optional[str]], Dict[str, List[Optional[str]]]]:
        """The values at a keyword, each once, in the order of the records; of several keywords a dict of these."""
        chosen = list(self if instances is None else instances)
        if isinstance(elements, str):
            return list(dict.fromkeys(one.get(elements) for one in chosen))
        return {name: list(dict.fromkeys(one.get(name) for one in chosen)) for name in elements}

    def listing(self) -> str:
        """The text that `dicomdir list` prints."""
        return _bytes.listing(self.data)

    def check(self, keys: bool = False, strict: bool = False,
              known: Optional[Callable[[Record], "Known"]] = None) -> List[Finding]:
        """What `dicomdir check` finds of the files: none where all are there, and as their records say.

        Each file's SHA-256, by hashlib, is compared with its record's. With `keys` the identifiers are compared too,
        and with `strict` records without a SHA-256 are found.

        `known` gives what is known of a record's file, in place of the files of the folder. It gives all its bytes, or
        None where it can't be opened. Of a large file it gives a pair: its SHA-256, and its head or None. The head is a
        DICOM file with its identifiers, such as its bytes before the Pixel Data. An OSError is a read that failed.
        """
        from ._checking import findings
        files = self._in_folder(keys) if known is None else self._known(known)
        return [Finding(Record(self, row), _FINDINGS[found.kind], _words(found))
                for row, found in findings(self.data, files, keys, strict)]

    def _in_folder(self, whole: bool) -> Iterator[Tuple[int, int, bytes]]:
        from ._checking import in_folder
        folder = self._folder()
        return (in_folder(folder, row, self._own(row, _FILE), whole) for row in self._files)

    def _known(self, known: Callable[[Record], "Known"]) -> Iterator[Tuple[int, int, bytes]]:
        from ._checking import as_known
        for row in self._files:
            try:
                given = known(Record(self, row))
            except OSError:
                yield row, _bytes.UNREADABLE, b""
            else:
                yield as_known(row, given)

    @staticmethod
    def build(paths: Iterable[Union[str, "os.PathLike[str]"]], set_id: str = "", uid: str = "",
              strict: bool = False) -> "Built":
        """The file-set of these image files, as `dicomdir index` makes it. Nothing is written before `write`.

        The result says what it leaves out. With `strict` it raises Fault where that is something: 98 Strict.
        """
        from ._building import build
        return build(paths, set_id, uid, strict)

    def withdraw(self, uids: Iterable[str], set_id: str = "", uid: str = "") -> "Built":
        """The file-set without the images of these SOP Instance UIDs, as `dicomdir withdraw` makes it. Nothing is
        written before `write`, and this file-set stays as it is."""
        from ._building import withdraw
        return withdraw(self, uids, set_id, uid)


def _words(found: _bytes.Found) -> str:
    if _FINDINGS[found.kind] != "MISLABELLED":
        return ""
    numbers = [f"{number} {FAULTS[number]}" for number in (found.within, found.cause) if number in FAULTS]
    return " ".join((["31 File", *numbers] if numbers else []) + ([tag_text(found.tag)] if found.tag else []))


def read(source: Union[str, "os.PathLike[str]", Data]) -> FileSet:
    """The file-set of a folder, of a DICOMDIR, or of the bytes of one.

    Raises Fault: 92 Absent where it can't be opened, 93 Unread where a read fails, 39 FileTooLong, and 51 to 58 where
    the offsets of its records can't be followed.
    """
    if isinstance(source, (bytes, bytearray, memoryview)):
        return FileSet(source)
    path = os.fspath(source)
    folder = path if os.path.isdir(path) else os.path.dirname(path)
    try:
        return FileSet(read_member(path, ["DICOMDIR"]) if os.path.isdir(path) else read_source(path), folder)
    except Fault as fault:
        # As the program names it, but for a DICOMDIR that is not there.
        raise (fault if fault.status in (92, 93) else fault.with_path(path)) from fault.__cause__
