"""libnvm.so by ctypes: the proved exports of c/nvm_c.h, each with its types."""
from __future__ import annotations

import ctypes
import ctypes.util
import functools
import os
from collections.abc import Iterator

_u8, _u16, _u32, _size = ctypes.c_uint8, ctypes.c_uint16, ctypes.c_uint32, ctypes.c_size_t
HERE = os.path.dirname(os.path.abspath(__file__))


class Handle(ctypes.Structure):
    """nvm_handle: it begins as nothing, and is never copied or written here."""
    _fields_ = [("at", ctypes.c_void_p)]


class Memory(ctypes.Structure):
    """nvm_memory: so many bytes at an address."""
    _fields_ = [("at", ctypes.c_void_p), ("length", _size)]


_handle, _memory = ctypes.POINTER(Handle), ctypes.POINTER(Memory)
# what each gives, and what it takes
CALLS = {
    "nvm_open": (_u8, _handle, ctypes.c_char_p, _size, Memory, _u32, _memory),
    "nvm_ask": (_u8, _handle, _u8, _u16, _u8, ctypes.c_char_p, _size, ctypes.POINTER(_u8)),
    "nvm_turn": (_u8, _handle),
    "nvm_cut": (_u8, _handle, _u32, _u32),
    "nvm_restart": (_u8, _handle),
    "nvm_status": (_u8, _handle, _u16),
    "nvm_entries": (_u32, _handle),
    "nvm_ram": (_u8, _handle, _u16, ctypes.c_char_p, _size, ctypes.POINTER(_size)),
    "nvm_ram_is_valid": (_u8, _handle, _u16),
    "nvm_given": (_u8, _handle, ctypes.c_char_p, _size, ctypes.POINTER(_size)),
    "nvm_line": (_u8, _handle, ctypes.c_char_p, _size, ctypes.POINTER(_size)),
    "nvm_close": (None, _handle, _memory),
    "nvm_check": (_u8, ctypes.c_char_p, _size, ctypes.POINTER(_u8), ctypes.POINTER(_u16)),
}


def places() -> Iterator[str]:
    """Where the library may be: as the environment says, beside the package as in a wheel, in the release or the repository that the package
    stands in, and where the system looks."""
    told = os.environ.get("NATUKERI_LIBRARY")
    if told:
        yield told
        return
    for place in (f"{HERE}/libnvm.so", f"{HERE}/../../../../lib/libnvm.so", f"{HERE}/../../.cache/lib/libnvm.so"):
        if os.path.exists(place):
            yield os.path.realpath(place)
    known = ctypes.util.find_library("nvm")
    if known:
        yield known


@functools.lru_cache(maxsize=None)
def load() -> ctypes.CDLL:
    """The library, with the types of its calls. OSError where there is none."""
    place = next(places(), None)
    if place is None:
        raise OSError("there is no libnvm.so: a release and its wheel have it, tools/dev/try_c --build makes it in the repository, "
                      "and NATUKERI_LIBRARY may name it")
    library = ctypes.CDLL(place)
    for name, (gives, *takes) in CALLS.items():
        try:
            call = getattr(library, name)
        except AttributeError:
            raise OSError(f"{place} has no {name}: it is no libnvm.so of this version") from None
        call.restype, call.argtypes = gives, takes
    return library
