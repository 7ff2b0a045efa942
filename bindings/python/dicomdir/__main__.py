"""Prints what is on a disc: python -m dicomdir FOLDER."""
import os
import sys
from io import TextIOWrapper
from typing import List

from . import Fault, Record, read
from ._text import printable

# What is shown of a record of each type.
_SHOWN = {"PATIENT": ("PatientID", "PatientName"), "STUDY": ("StudyDate", "StudyDescription"),
          "SERIES": ("Modality", "SeriesNumber", "SeriesDescription")}


def line_of(record: Record) -> str:
    """A record by its type, what is shown of it, and its file."""
    words = [record.record_type, *(record.get(name) or "-" for name in _SHOWN.get(record.record_type, ()))]
    words += [record.path] if record.path else []
    words += [] if record.in_use else ["(not in use)"]
    return printable("  " * record.level + " ".join(words))


def main(words: List[str]) -> int:
    """The status: 0, 1 where the file-set is refused, or 2 where no folder is named."""
    if len(words) != 1 or words[0].startswith("-"):
        print("Usage: python -m dicomdir FOLDER", file=sys.stderr)
        return 2
    if isinstance(sys.stdout, TextIOWrapper):
        sys.stdout.reconfigure(errors="backslashreplace")
    try:
        for record in read(words[0]).records:
            print(line_of(record))
        print(end="", flush=True)
    except Fault as fault:
        print(f"FAULT {fault}", file=sys.stderr)
        return 1
    except OSError as error:
        # What is left is not written again at the end.
        os.dup2(os.open(os.devnull, os.O_WRONLY), sys.stdout.fileno())
        if not isinstance(error, BrokenPipeError):
            print(f"error: the output can't be written: {error.strerror}", file=sys.stderr)
        return 1
    return 0


if __name__ == "__main__":
    sys.exit(main(sys.argv[1:]))
