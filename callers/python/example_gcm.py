"""A message is sealed under the next nonce of a counter that is kept in a file beside its key, and opened again.

    example_gcm.py seal FOLDER > MESSAGE    with the file FOLDER/key, which it makes if there is none
    example_gcm.py open FILE < MESSAGE      with the file of its key: FOLDER/key, FOLDER/key.1, ..
    example_gcm.py new-key FOLDER           moves FOLDER/key to the first free name of FOLDER/key.1, .., which it prints.
                                            The next message draws another key
    example_gcm.py old-key FOLDER NAME      moves FOLDER/key away likewise, and FOLDER/NAME back to FOLDER/key

The order is what keeps a nonce from being used twice: lock, read key and counter, seal, store both, unlock, and only
then send. callers/c/example_gcm.c says what two processes, a forked child, a new key and a restored snapshot do. Both
programs may share a folder, and open each other's messages.
"""
import contextlib
import fcntl
import itertools
import os
import pathlib
import sys
from typing import Iterator, Tuple

from fotsgure.gcm import Gcm, Refused

NAME, TEXT = b"its name".ljust(16, b"\0"), b"a message".ljust(32, b"\0")


@contextlib.contextmanager
def locked(path: pathlib.Path) -> Iterator[int]:
    """The folder, which one process or thread at a time has, and nobody else may write."""
    folder = os.open(path, os.O_RDONLY | os.O_DIRECTORY)
    try:
        about = os.fstat(folder)
        if about.st_uid != os.geteuid() or about.st_mode & 0o022:
            raise PermissionError(f"{path}: others may write this folder. Use one of your own, with chmod 700")
        fcntl.flock(folder, fcntl.LOCK_EX)
        yield folder
    finally:
        fcntl.flock(folder, fcntl.LOCK_UN)
        os.close(folder)


def load(file: pathlib.Path) -> Tuple[bytes, bytes]:
    """A key and its counter. They are written and moved together, so that no key is ever beside the counter of another.
    """
    kept = file.read_bytes()
    if len(kept) != 32 + 12:
        raise ValueError(f"{file}: it doesn't have the 44 bytes of a key and its counter. Call new-key: the next message draws "
                         "another key")
    return kept[:32], kept[32:]


def store(path: pathlib.Path, folder: int, data: bytes) -> None:
    """Writes another file, flushes it, gives it the name, and flushes the folder. After a crash the old file or the new
    one is there, whole. A file that a crash left is not written again: others might be allowed to read it. If this
    raises, nothing is sent, and the key is as good as before."""
    with contextlib.suppress(FileNotFoundError):
        (path / "new").unlink()
    with open(path / "new", "xb", opener=lambda file, flags: os.open(file, flags, 0o600)) as file:
        file.write(data)
        file.flush()
        os.fsync(file.fileno())
    os.rename(path / "new", path / "key")
    os.fsync(folder)


def seal(path: pathlib.Path, text: bytes, additional: bytes) -> Tuple[bytes, bytes]:
    """The nonce and the sealed text. If it raises, send nothing."""
    with locked(path) as folder:
        # Don't use a password as a key.
        key, counter = load(path / "key") if os.path.lexists(path / "key") else (os.urandom(32), bytes(12))
        with Gcm(key, counter) as gcm:
            nonce, sealed = gcm.seal_next(text, additional)
            store(path, folder, key + gcm.counter)
    return nonce, sealed


def move(folder: int, old: pathlib.Path, new: pathlib.Path) -> None:
    """Moves a file of the folder, whose lock is held, to a name that no file has. After a crash it has one of the names.
    """
    os.rename(old, new)
    os.fsync(folder)


def move_away(path: pathlib.Path, folder: int) -> pathlib.Path:
    """Moves the key to the first free name of key.1, key.2, .., and returns that."""
    names = (path / f"key.{number}" for number in itertools.count(1))
    name = next(name for name in names if not os.path.lexists(name))
    move(folder, path / "key", name)
    return name


def new_key(path: pathlib.Path) -> None:
    with locked(path) as folder:
        if not os.path.lexists(path / "key"):
            raise ValueError(f"{path / 'key'}: there is none: the next message draws one")
        name = move_away(path, folder)
    print(name)


def old_key(path: pathlib.Path, name: str) -> None:
    """A crash during this call leaves no key: the next message draws one."""
    if not name.startswith("key.") or "/" in name:
        raise ValueError(f"{name}: use a name that new-key has printed, without the folder")
    with locked(path) as folder:
        load(path / name)
        other = move_away(path, folder) if os.path.lexists(path / "key") else None
        move(folder, path / name, path / "key")
    if other:
        print(other)


def open_with(file: pathlib.Path, nonce: bytes, sealed: bytes, additional: bytes) -> bytes:
    """The text, with the key of the file that is named, the present one or an older. Without a counter it can't
    seal."""
    key, _ = load(file)
    with Gcm(key) as gcm:
        return gcm.open(nonce, sealed, additional)


USAGE = """usage: example_gcm.py seal FOLDER > MESSAGE, or example_gcm.py open FILE < MESSAGE, or
example_gcm.py new-key FOLDER, or example_gcm.py old-key FOLDER NAME"""


def main(*words: str) -> int:
    if len(words) != (3 if words[:1] == ("old-key",) else 2) or words[0] not in ("seal", "open", "new-key", "old-key"):
        print(USAGE, file=sys.stderr)
        return 2
    path = pathlib.Path(words[1])
    if words[0] == "seal":
        nonce, sealed = seal(path, TEXT, NAME)
        sys.stdout.buffer.write(NAME + nonce + sealed)  # all of it is sent
    elif words[0] == "open":
        message = sys.stdin.buffer.read()
        print(open_with(path, message[16:28], message[28:], message[:16]).rstrip(b"\0").decode())
    elif words[0] == "new-key":
        new_key(path)
    else:
        old_key(path, words[2])
    sys.stdout.flush()
    return 0


try:
    sys.exit(main(*sys.argv[1:]))
except (OSError, ValueError) as error:
    sys.exit(f"example_gcm.py: {error}")
except Refused:
    sys.exit("example_gcm.py: the message was changed, or sealed under another key")
