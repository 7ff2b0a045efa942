"""Calls of pydicom, which read what a disc says."""
import logging
import re
import warnings
from contextlib import contextmanager
from io import BytesIO
from typing import Any, Iterator, Optional

from ._text import printable

_CONTROLS = r"(?s).*[\x00-\x1f\x7f-\x9f]"
_HUSHED = ("ignore", re.compile(_CONTROLS, re.I), Warning, re.compile(r"pydicom(\.|\Z)"), 0)


def _printable(record: logging.LogRecord) -> bool:
    record.msg, record.args = printable(record.getMessage()), ()
    return True


def _hush() -> None:
    """Warnings of pydicom with control characters are not shown, and what it logs has `?` for each. No filter is taken
    away again: that would not be safe where other threads set some."""
    if warnings.filters[:1] != [_HUSHED]:
        warnings.filterwarnings("ignore", _CONTROLS, Warning, r"pydicom(\.|\Z)")
    logging.getLogger("pydicom").addFilter(_printable)


@contextmanager
def _clean() -> Iterator[None]:
    """What pydicom raises has `?` for each control character, and is the same else."""
    _hush()
    try:
        yield
    except Exception as error:
        one: Optional[BaseException] = error
        while one is not None:
            one.args = tuple(printable(it) if isinstance(it, str) else it for it in one.args)
            one = one.__cause__ or one.__context__
        raise


def file(data: bytes) -> Any:
    """A DICOM file, as a Dataset."""
    with _clean():
        from pydicom import dcmread
        return dcmread(BytesIO(data))


def text_in(data: bytes, name: str) -> Optional[str]:
    """The text that a DICOM file has at a keyword."""
    dataset = file(data)
    with _clean():
        value = dataset.get(name)
        return None if value is None else str(value)


def item(data: bytes, offset: int) -> Any:
    """The item of a sequence at an offset, as a Dataset."""
    with _clean():
        from pydicom.filereader import read_sequence_item
        stream = BytesIO(data)
        stream.seek(offset)
        return read_sequence_item(stream, False, True, "latin-1", 0)
