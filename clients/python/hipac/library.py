"""A rule base in this process, by the library libhipac (include/hipac.h)."""

from __future__ import annotations

import ctypes
import ctypes.util
import functools
import os
import subprocess
import threading
import warnings
from pathlib import Path
from threading import get_ident
from typing import Any, Iterator, Optional, Union

from .errors import FAULT_STATUS, HipacError, LibraryMissing, WrongThread
from .ways import End, Way

# The statuses of hipac.h.
_OK, _REFUSED, _MEMORY, _CLOSED, _UNKNOWN = range(5)

# The options of hipac_open.
_TREE, _TEXT, _CHECKED = 1, 2, 4

# The version of the library's functions that this module calls.
_VERSION = 1

_SONAME = "libhipac.so.1"

# The status with which the program ends after a refused script.
_SCRIPT_REFUSED = 2

# The folder above this package's: the repository's, or PREFIX/lib of what `./build --install PREFIX` has installed.
_ABOVE = Path(__file__).resolve().parents[3]


class _Handle(ctypes.Structure):
    """The handle of hipac.h."""

    _fields_ = [("at", ctypes.c_void_p)]


def _built() -> Optional[Path]:
    """The proved library that ./build has made of the repository's files as they stand."""
    if not list(_ABOVE.glob(".built/hipac_c-proved-*")):
        return None
    words = [str(_ABOVE / "tools" / "key"), str(_ABOVE), "hipac_c", "src", "specs", "proofs"]
    key = subprocess.run(words, stdin=subprocess.DEVNULL, stdout=subprocess.PIPE, text=True, check=True).stdout.strip()
    return _ABOVE / ".built" / f"hipac_c-proved-{key}" / "libhipac.so"


def _places() -> Iterator[Union[str, "os.PathLike[str]", None]]:
    """Where the library may be, the first place that has it first."""
    yield os.environ.get("HIPAC_LIBRARY")
    yield _built()
    yield _ABOVE / _SONAME if (_ABOVE / _SONAME).exists() else None
    yield ctypes.util.find_library("hipac")


def find_library(path: Union[str, "os.PathLike[str]", None] = None) -> str:
    """The library's path, or its name for the system's loader: `path`, else $HIPAC_LIBRARY, else the one that ./build
    has made in this repository or installed beside this package, else the system's. LibraryMissing where there is
    none."""
    given = path or os.environ.get("HIPAC_LIBRARY")
    if given:
        return os.fspath(given)
    for place in _places():
        if place is not None and (not isinstance(place, Path) or place.is_file()):
            return os.fspath(place)
    raise LibraryMissing("there is no libhipac: ./build hipac_c makes it, and library= or $HIPAC_LIBRARY says where it "
                         "is; by=\"program\" needs none")


@functools.lru_cache(maxsize=None)
def _loaded(path: str) -> ctypes.CDLL:
    """The library of this path."""
    try:
        library = ctypes.CDLL(path)
        version = library.hipac_version()
    except (OSError, AttributeError) as fault:
        raise LibraryMissing(f"{path} is no libhipac: {fault}") from None
    if version != _VERSION:
        raise LibraryMissing(f"{path} has version {version} of the functions, and not {_VERSION}")
    place, size = ctypes.c_void_p, ctypes.c_size_t
    library.hipac_open.argtypes = [ctypes.c_char_p, size, ctypes.c_uint32, place, place, place]
    library.hipac_line.argtypes = [place, ctypes.c_char_p, size, place, place]
    library.hipac_get.argtypes = [place, ctypes.c_char_p, size, ctypes.c_int64, place, place]
    library.hipac_close.argtypes = [place]
    library.hipac_close.restype = None
    return library


class _OwnThread:
    """Lets one call after the other in, of the thread that made this."""

    def __init__(self) -> None:
        self._number = get_ident()
        self._name = threading.current_thread().name
        self._is_taken = False

    def is_own(self) -> bool:
        return get_ident() == self._number

    def __enter__(self) -> None:
        if get_ident() != self._number:
            raise WrongThread(f"this rule base belongs to the thread {self._name!r}, which opened it; "
                              f"by=\"program\" has rule bases that threads share")
        if self._is_taken:
            raise WrongThread("a call with this rule base is still at work, which a signal has interrupted")
        self._is_taken = True

    def __exit__(self, *_: object) -> None:
        self._is_taken = False


class Library(Way):
    """A rule base of the library. The answer is there once a call returns."""

    has_get = True
    name = "the library"

    def __init__(self, path: Union[str, "os.PathLike[str]", None], is_text: bool, trees: bool,
                 checked: bool):
        self._functions = _loaded(find_library(path))
        self._handle, self._length = _Handle(), ctypes.c_size_t()
        # A slice of it is a copy of the bytes.
        self._answer: Any = ctypes.POINTER(ctypes.c_char)()
        self._at_handle, self._at_answer = ctypes.byref(self._handle), ctypes.byref(self._answer)
        self._at_length = ctypes.byref(self._length)
        self._line = self._functions.hipac_line
        self._options = (_TREE if trees else 0) + (_TEXT if is_text else 0) + (_CHECKED if checked else 0)
        self._own = _OwnThread()
        self._end = End(0)
        self.turn = self._own
        self.pid = os.getpid()

    def open(self, script: bytes) -> Optional[bytes]:
        status = self._functions.hipac_open(
            script, len(script), self._options, self._at_handle, self._at_answer, self._at_length)
        if status == _REFUSED:
            self._end = End(_SCRIPT_REFUSED, "", "the library has refused the script")
        return self._told(status)

    def send(self, line: bytes) -> Optional[bytes]:
        status = self._line(self._at_handle, line, len(line), self._at_answer, self._at_length)
        if status > _REFUSED:
            return self._told(status)
        answer: bytes = self._answer[:self._length.value]
        return answer

    def get(self, class_name: str, key: int) -> Optional[bytes]:
        raw = class_name.encode("utf-8")
        return self._told(self._functions.hipac_get(
            self._at_handle, raw, len(raw), key, self._at_answer, self._at_length))

    def _told(self, status: int) -> Optional[bytes]:
        """The answer to a call with this status, or None where memory ran out."""
        if status in (_OK, _REFUSED):
            answer: bytes = self._answer[:self._length.value]
            return answer
        if status != _MEMORY:
            raise HipacError(f"the library's status is {status}")
        self._end = End(FAULT_STATUS, "fault F1\n", "the library has no memory, and the rule base is lost "
                                                    "(F1: no memory)")
        return None

    def read(self) -> Optional[str]:
        return None

    def _free(self) -> None:
        self._functions.hipac_close(self._at_handle)

    def kill(self) -> None:
        self._free()

    def end(self) -> End:
        self._free()
        return self._end

    def __del__(self) -> None:
        handle: Optional[_Handle] = getattr(self, "_handle", None)
        if handle is None or not handle.at:
            return
        warnings.warn("a rule base of the library was not closed", ResourceWarning, source=self)
        # From another thread it must not be called: what it has stays where it is.
        if self._own.is_own():
            self._free()
