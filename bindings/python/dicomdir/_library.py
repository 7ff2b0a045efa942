"""Finds and loads libdicomdir.so.1: the one beside this file, which `make install` links there, or the system's."""
import ctypes
import os
import platform
import sys

_INTERFACE = 2
# What /proc/cpuinfo calls the parts of x86-64-v2.
_NEEDED = ("cx16", "lahf_lm", "popcnt", "pni", "sse4_1", "sse4_2", "ssse3")
_FUNCTIONS = ("interface", "list", "rows", "front", "spellings", "findings", "of_image", "merge", "notes", "withdraw")


def _look_at_machine() -> None:
    """Raises ImportError where this machine can't run the library."""
    machine = platform.machine()
    if sys.platform != "linux" or machine not in ("x86_64", "aarch64") or sys.maxsize < 2 ** 32:
        raise ImportError("dicomdir needs Linux on x86-64 or aarch64")
    if machine == "x86_64":
        _look_at_processor()


def _look_at_processor() -> None:
    """Raises ImportError where this processor lacks a part of x86-64-v2."""
    try:
        with open("/proc/cpuinfo", encoding="ascii", errors="replace") as file:
            flags = next((line.split() for line in file if line.startswith("flags")), None)
    except OSError:
        return  # The loader of glibc looks, too.
    lacking = [name for name in _NEEDED if flags is not None and name not in flags]
    if lacking:
        raise ImportError("dicomdir needs a processor of x86-64-v2, as Intel makes since 2009 and AMD since 2011: "
                          "this one lacks " + ", ".join(lacking))


def _load() -> ctypes.CDLL:
    _look_at_machine()
    beside = os.path.join(os.path.dirname(os.path.abspath(__file__)), "libdicomdir.so.1")
    try:
        loaded = ctypes.CDLL(beside if os.path.exists(beside) else "libdicomdir.so.1")
        for name in _FUNCTIONS:
            getattr(loaded, "dicomdir_" + name).restype = ctypes.c_uint32
    except (OSError, AttributeError) as error:
        raise ImportError(f"dicomdir needs its C library: {error}") from error
    if loaded.dicomdir_interface() < _INTERFACE:
        raise ImportError("libdicomdir.so.1 is older than this package")
    return loaded


library = _load()
