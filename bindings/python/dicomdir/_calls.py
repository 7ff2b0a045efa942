"""Every call of the C library: no other lines of this package hand memory to C.

An input is copied, or is `bytes`, which nobody changes. Outputs have room of which dicomdir.h says that it always
suffices. No more is read of it than the library answered.
"""
import ctypes
from array import array
from itertools import accumulate
from mmap import MAP_ANONYMOUS, MAP_PRIVATE, mmap
from typing import Any, Callable, List, NamedTuple, Sequence, Tuple, Union

from ._library import library


class Answer(ctypes.Structure):
    """What every call answers beside its outputs: struct dicomdir_answer of dicomdir.h."""
    _fields_ = [(name, ctypes.c_uint64) for name in ("text", "rows", "files", "source")] + [
        (name, ctypes.c_uint32) for name in ("fault", "within", "cause", "at", "tag")]


class Room(NamedTuple):
    """Room for an output: items, each of this many numbers of a kind of array ('B', 'I' or 'Q')."""
    kind: str
    numbers: int
    items: int
    # Are its numbers, of kind 'Q', all small enough to be held as 'I'?
    short: bool = False

    def size(self, items: int) -> int:
        """How many bytes so many of its items have."""
        return array(self.kind).itemsize * self.numbers * items


# Up to this many bytes are cheaper at once than by pages.
_FEW = 1 << 16
# Bytes, a flag, or an array and how many of its numbers are one item.
Input = Union[bytes, bool, Tuple["array[int]", int]]


def _words(given: Input, kept: List[Any]) -> List[Any]:
    """The words of C for an input. Kept stays alive until the call has ended."""
    if isinstance(given, bool):
        return [ctypes.c_uint32(given)]
    if isinstance(given, bytes):
        return [ctypes.c_char_p(given), ctypes.c_size_t(len(given))]
    # One number more, as the pointer to no numbers may be NULL.
    kept.append(given[0] + array(given[0].typecode, [0]))
    return [ctypes.c_void_p(kept[-1].buffer_info()[0]), ctypes.c_size_t(len(given[0]) // given[1])]


def _held(size: int) -> Union[bytearray, mmap]:
    """Room for this many bytes: where they are many, in pages that the system gives as they are written."""
    if size <= _FEW:
        return bytearray(size)
    try:
        return mmap(-1, size, flags=MAP_PRIVATE | MAP_ANONYMOUS)
    except OSError as error:
        raise MemoryError from error


def _read(view: memoryview, room: Room, items: int) -> Any:
    """These items of an output: bytes, or an array of larger numbers."""
    given = view[:room.size(items)]
    if room.kind == "B":
        return given.tobytes()
    if room.short:
        # The low half of a number comes first: no machine that `_library` takes has the other order.
        return array("I", given.cast("I")[::2].tobytes())
    out = array(room.kind)
    out.frombytes(given)
    return out


def ask(name: str, inputs: Sequence[Input], rooms: Sequence[Room], sizes: Callable[[Answer], Sequence[int]],
        lone: bool = False) -> Tuple[int, Answer, List[Any]]:
    """The status of dicomdir_NAME, its answer, and each output, which is empty where the status is not 0. `sizes` says
    how many items an answer has of each. With `lone` the last output is one item, which crosses without its number."""
    answer, kept = Answer(), []  # type: Tuple[Answer, List[Any]]
    words = [word for given in inputs for word in _words(given, kept)]
    # Each begins at a multiple of 8 bytes.
    places = list(accumulate((room.size(room.items) + 15 & ~7 for room in rooms), initial=0))
    held = _held(places[-1])
    first = ctypes.addressof(ctypes.c_char.from_buffer(held))
    for room, at in zip(rooms, places):
        words += [ctypes.c_void_p(first + at), ctypes.c_size_t(room.items)]
    status = getattr(library, "dicomdir_" + name)(*(words[:-1] if lone else words), ctypes.byref(answer))
    found = sizes(answer) if status == 0 else [0] * len(rooms)
    if status == 1 or any(items > room.items for room, items in zip(rooms, found)):
        raise SystemError("libdicomdir answered more than there is room for")
    with memoryview(held) as view:
        return status, answer, [_read(view[at:], room, items) for room, at, items in zip(rooms, places, found)]
