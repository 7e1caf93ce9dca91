"""What the modules share: the shared library's calls, arguments that are what they should be, and turns for threads."""
import array
import collections.abc
import contextlib
import ctypes
import ctypes.util
import mmap
import operator
import os
import pathlib
import platform
import sys
import threading
import weakref
from typing import Any, Iterable, Iterator, List, Optional, Protocol, Tuple, Union

# What has a buffer, for type checkers. `view_of` says what counts as bytes.
if sys.version_info >= (3, 12):
    Bytes = collections.abc.Buffer
else:
    class _Buffer(Protocol):
        def __buffer__(self, flags: int, /) -> memoryview: ...

    # The first ones by name, for type checkers that don't know that they have `__buffer__`.
    Bytes = Union[bytes, bytearray, memoryview, "array.array[Any]", mmap.mmap, _Buffer]
# What has a buffer that can be written.
Writable = Union[bytearray, memoryview, "array.array[Any]", mmap.mmap]
# The words of the structs that hold a key, as the headers have them.
Word = ctypes.c_uint64 if platform.machine() == "riscv64" else ctypes.c_uint32
# A call's name, types of its arguments, type of its result.
Call = Tuple[str, List[Any], Optional[type]]


def by_pip(file: str) -> Optional[str]:
    """A library that pip put beside this file, or, if this is the clone's folder, into the package that pip installed."""
    places = [pathlib.Path(__file__).with_name(file), *(pathlib.Path(it, "fotsgure", file) for it in sys.path)]
    return next((str(it) for it in places if os.path.exists(it)), None)  # Path.exists raises for a folder that can't be read


def load(name: str, version: int, calls: Iterable[Call]) -> ctypes.CDLL:
    """Loads the library of that name. An environment variable with the name in capitals names its file. Without it the
    file is where pip puts it, or else where the loader searches. `version` is 100 times the first number plus the second:
    before 1.0, structs may grow with either."""
    numbers = f"{version // 100}.{version % 100}"
    # On Windows a file is searched for, in PATH.
    wanted, file = (f"lib{name}-{numbers}.dll",) * 2 if os.name == "nt" else (name, f"lib{name}.so.{numbers}")
    if sys.platform == "darwin":
        file = f"lib{name}.{numbers}.dylib"
    found = os.environ.get(name.upper()) or by_pip(file) or ctypes.util.find_library(wanted) or file
    try:
        c = ctypes.CDLL(found)
    except OSError as error:
        raise ImportError(f"{error}: install the library by 'make -C dist install', or by 'pip install' of the clone's "
                          f"callers/python where make and a C compiler are, or name its file in the variable {name.upper()}") from None
    for call, arguments, result in [("version", [], ctypes.c_uint32), *calls]:
        try:
            function = getattr(c, f"{name}_{call}")
        except AttributeError:
            raise ImportError(f"{found} isn't the library {name} {version // 100}.{version % 100}: it has no "
                              f"{name}_{call}") from None
        function.argtypes, function.restype = arguments, result
        if call == "version" and function() // 100 != version:
            raise ImportError(f"this is a wrapper for version {version // 100}.{version % 100} of {name}, and the "
                              f"library has the number {function()}")
    return c


# The formats of single numbers and bytes in the module `struct`, and so no pointers, objects and records.
_ITEMS = frozenset("cbB?hHiIlLqQnNefd")


def view_of(data: Any) -> memoryview:
    """A view of data whose buffer is C-contiguous, has one dimension or more, and holds numbers or single bytes. A view
    with gaps raises BufferError. Anything else raises TypeError: an integer, a number of numpy or ctypes, a list, text, an
    array of objects."""
    try:
        view = memoryview(data)
    except (TypeError, ValueError) as error:
        raise TypeError(f"{type(data).__name__} isn't bytes-like: {error}") from None
    if view.ndim == 0 or not hasattr(data, "__len__") or view.format.lstrip("@=<>!") not in _ITEMS:
        raise TypeError(f"{type(data).__name__} isn't bytes-like")
    if not view.c_contiguous:
        raise BufferError("Buffer is not contiguous.")
    return view


def length_of(data: Any) -> int:
    """How many bytes whatever has bytes has."""
    return len(data) if type(data) is bytes else view_of(data).nbytes


def bytes_of(data: Any) -> bytes:
    """The bytes of whatever has bytes: a copy, except of `bytes`, which nobody can change during a call."""
    return data if type(data) is bytes else view_of(data).tobytes()


def bytes_or_none(data: Any) -> bytes:
    """The bytes of whatever has bytes, or no bytes for None."""
    return b"" if data is None else bytes_of(data)


def number(value: Any, most: int, what: str) -> int:
    """A number from 0 to `most`: TypeError or ValueError for anything else."""
    index = operator.index(value)
    if not 0 <= index <= most:
        raise ValueError(f"{what} is a number from 0 to {most}")
    return index


def buffer_of(data: Any, more: int) -> bytearray:
    """A buffer that a call may write: the bytes of whatever has bytes, and `more` zeros."""
    given = bytes_of(data)
    buffer = bytearray(len(given) + more)
    memoryview(buffer)[:len(given)] = given
    return buffer


def address(buffer: bytearray, offset: int = 0) -> Any:
    """Where a byte of a buffer is, for a call."""
    return ctypes.byref(ctypes.c_char.from_buffer(buffer, offset))


def first(buffer: bytearray, length: int) -> bytes:
    """The first bytes of a buffer, which a call has written."""
    return bytes(memoryview(buffer)[:length])


class Secret:
    """What is neither copied nor pickled: a copy would be wiped by nobody, and a counter's would give out its nonces again."""

    def __reduce__(self) -> Any:
        raise TypeError("cannot pickle or copy a key, a counter, a message or a keystream")


class Turn:
    """Lets one thread at a time use what returns each value only once: a counter, a message, a keystream. It can be used
    only in the process that made it. A fork copies it, and both copies would return the same values."""

    def __init__(self, what: str) -> None:
        self._what, self._process, self._lock = what, os.getpid(), threading.RLock()

    def is_ours(self) -> bool:
        return os.getpid() == self._process

    def __enter__(self) -> None:
        # Asked first: another thread may have held the lock when the process was forked, and nobody releases it here.
        if not self.is_ours():
            raise ValueError(f"the {self._what} belongs to the process that this one was forked from")
        self._lock.acquire()

    def __exit__(self, *_: Any) -> None:
        self._lock.release()


class Uses:
    """The calls that read a struct, in any number of threads at the same time: in a `with`. What writes it waits for
    them, in a `with` of `alone`, and calls that come meanwhile wait for it."""

    def __init__(self) -> None:
        self._change, self._is_written = threading.Condition(), False
        self._running: List[int] = []
        _uses.add(self)

    def __enter__(self) -> None:
        with self._change:
            while self._is_written:
                self._change.wait()
            self._running.append(threading.get_ident())

    def __exit__(self, *_: Any) -> None:
        with self._change:
            self._running.remove(threading.get_ident())
            self._change.notify_all()

    @contextlib.contextmanager
    def alone(self) -> Iterator[None]:
        # A handler of a signal may run during a call of its own thread, which it can't wait for.
        with self._change:
            self._is_written = True
            try:
                self._change.wait_for(lambda: all(it == threading.get_ident() for it in self._running))
                yield
            finally:
                self._is_written = False
                self._change.notify_all()

    def forked(self) -> None:
        """In the child only the thread that forked continues."""
        mine = [it for it in self._running if it == threading.get_ident()]
        self._change, self._running, self._is_written = threading.Condition(), mine, False


_uses: "weakref.WeakSet[Uses]" = weakref.WeakSet()


def _forked() -> None:
    for it in list(_uses):
        it.forked()


if hasattr(os, "register_at_fork"):
    os.register_at_fork(after_in_child=_forked)
