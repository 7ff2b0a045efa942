"""The numbers and words of docs/FAULTS.md."""
from typing import Any, Optional

from ._text import printable

FAULTS = {
    1: "Truncated", 2: "Order", 3: "BadVr", 4: "Reserved", 5: "OddLength", 6: "UndefinedLength", 7: "UnexpectedTag",
    8: "BadDelimiter", 9: "Overrun", 10: "TooDeep", 21: "NotPart10", 22: "GroupLength", 23: "MetaMissing",
    24: "MetaUid", 25: "OtherSyntax", 26: "Meta", 27: "Set", 31: "File", 32: "NotImage", 33: "MissingKey",
    34: "BadKeyUid", 35: "KeyTooLong", 36: "KeyIsSequence", 37: "MetaMismatch", 38: "Read", 39: "FileTooLong",
    41: "Conflict", 42: "TooMany", 43: "TooLarge", 51: "File", 52: "NotDirectory", 53: "RecordShape", 54: "Dangling",
    55: "Twice", 56: "LastRoot", 58: "TooDeep", 61: "NoDigest", 62: "ForeignRecord", 63: "RecordKey",
    65: "BadWithdrawal", 71: "BadUid", 72: "BadSetId", 91: "Memory", 92: "Absent", 93: "Unread", 94: "Create",
    95: "Folder", 96: "Unsent", 97: "Changed", 98: "Strict"}
# The faults whose words name the offset of a record.
_PLACED = (53, 54, 55, 58, 61, 62, 63)
# Numbers below this one are causes. As the status of a call they are no faults of docs/FAULTS.md.
_LEAST = 31
_ARGUMENTS = "arguments at fault"


class Fault(ValueError):
    """A refusal, in the words of the program, such as '51 File 27 Set 1 Truncated'.

    `status` is its number, `within` and `cause` are the numbers of its causes. `at` is the offset of a record, `tag` a
    tag as 0x00100020, and `source` the number of the input at fault. Each is 0 where it does not apply. `path` is the
    file or folder that it concerns, if any; as text it has `?` for what can't be printed.
    """

    def __init__(self, status: int, answer: Any = None, path: Optional[str] = None) -> None:
        self.status, self.path = status, path
        self.within, self.cause, self.at, self.tag, self.source = (
            getattr(answer, name, 0) for name in ("within", "cause", "at", "tag", "source"))
        super().__init__(self.words if path is None else f"{printable(path)}: {self.words}")

    @property
    def words(self) -> str:
        """The fault without its path."""
        if self.status < _LEAST or self.status not in FAULTS:
            return _ARGUMENTS
        numbers = [self.status] if self.status == 91 else [self.status, self.within, self.cause]
        words = [f"{number} {FAULTS[number]}" for number in numbers if number in FAULTS]
        if self.status in _PLACED:
            words.append(str(self.at))
        if self.tag:
            words.append(tag_text(self.tag))
        return " ".join(words)

    def with_path(self, path: str) -> "Fault":
        """The same fault, of this file or folder."""
        return Fault(self.status, self, path)

    def __reduce__(self) -> Any:
        return _again, (self.status, self.within, self.cause, self.at, self.tag, self.source, self.path)


class _Numbers:
    def __init__(self, *numbers: int) -> None:
        self.within, self.cause, self.at, self.tag, self.source = numbers


def _again(status: int, within: int, cause: int, at: int, tag: int, source: int, path: Optional[str]) -> Fault:
    return Fault(status, _Numbers(within, cause, at, tag, source), path)


def tag_text(tag: int) -> str:
    """A tag as (0010,0020)."""
    return f"({tag >> 16:04X},{tag & 0xFFFF:04X})"
