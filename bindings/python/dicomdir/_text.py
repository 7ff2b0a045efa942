"""Values as text, in the character set that their record names (0008,0005)."""
import warnings
from functools import lru_cache
from typing import Any, Dict, List, Optional, Set

# Where pydicom does not decode, these are decoded; all others are read as Latin-1, with a warning.
_CODECS: Dict[bytes, str] = {b"": "latin-1", b"ISO_IR 6": "latin-1", b"ISO_IR 100": "latin-1", b"ISO_IR 192": "utf-8",
                             b"GB18030": "gb18030", b"GBK": "gbk"}
# After these ISO 2022 begins anew: between components and values, and at the ends of lines.
_DELIMITERS = {0x5C, 0x5E, 0x3D, 0x0D, 0x0A, 0x09, 0x0C}
_warned: Set[bytes] = set()


def printable(text: str) -> str:
    """The text with `?` for each character that a terminal may obey, or can't show."""
    return "".join(letter if letter.isprintable() else "?" for letter in text)


def text_of(value: bytes, charset: bytes) -> Optional[str]:
    """A value as text: None where there is no value."""
    if not value:
        return None
    if value.isascii() and b"\x1b" not in value:
        return value.decode("ascii")
    # Spaces around a code are padding (PS3.5 section 6.2).
    charset = charset.strip(b" ")
    name = charset.decode("latin-1")
    # pydicom's warnings have the name as it is.
    if name.isprintable() and _pydicom() is not None:
        return _by_pydicom(value, charset)
    if charset in _CODECS:
        return value.decode(_CODECS[charset], "replace")
    if charset not in _warned:
        _warned.add(charset)
        why = "pydicom is not here" if _pydicom() is None else "no set has this name"
        warnings.warn(f"text in the character set {printable(name)} is read as Latin-1, as {why}; Record.raw gives its "
                      "bytes", UnicodeWarning, stacklevel=4)
    return value.decode("latin-1")


@lru_cache(maxsize=1)
def _pydicom() -> Any:
    """The module of pydicom that decodes, and None where that is not here. It is imported for the first value that needs
    it, which takes a fifth of a second."""
    try:
        from pydicom import charset
    except ImportError:
        return None
    return charset


@lru_cache(maxsize=64)
def _encodings(charset: bytes) -> List[str]:
    return _pydicom().convert_encodings([one.strip() for one in charset.decode("latin-1").split("\\")])


def _by_pydicom(value: bytes, charset: bytes) -> str:
    try:
        return _pydicom().decode_bytes(value, _encodings(charset), _DELIMITERS)
    except (LookupError, UnicodeError, ValueError):
        return value.decode("latin-1")
