"""AES with keys of 16, 24 and 32 bytes, and counter mode, over the shared library by ctypes.

    with Aes(key) as aes:
        aes.encrypt(blocks); aes.decrypt(blocks)           bytes in, bytes out; a bytearray in place
        stream = aes.keystream(iv); stream.apply(data)     counter mode, however data is cut

The head of fotsgure.gcm says what counts as bytes. FOTSGURE_AES names the library's file. Without it, the module loads the
library that pip built, or the loader searches for one. Python copies bytes as it likes, so only the key schedule is wiped.
"""
import ctypes
from typing import Any, Tuple, Union

from .library import Bytes, Secret, Turn, Uses, Word, address, buffer_of, bytes_of, first, load, number

__all__ = ["Aes", "Keystream", "VERSION"]


class _Key(Secret, ctypes.Structure):
    _fields_ = [("key_length", Word), ("round_keys", Word * 120)]


class _Ctr(Secret, ctypes.Structure):
    _fields_ = [("iv", ctypes.c_uint8 * 16), ("position", ctypes.c_uint64)]


_key, _size, _status = ctypes.POINTER(_Key), ctypes.c_size_t, ctypes.c_uint32
_c = load("fotsgure_aes", 4, [
    ("set_key", [_key, ctypes.c_char_p, _size], _status),
    ("wipe", [_key], None),
    ("encrypt_blocks", [_key, ctypes.c_void_p, _size], _status),
    ("decrypt_blocks", [_key, ctypes.c_void_p, _size], _status),
    ("add_keystream", [_key, ctypes.POINTER(_Ctr), ctypes.c_void_p, _size], _status),
])
VERSION: int = _c.fotsgure_aes_version()
_DONE, _KEYSTREAM_END = 0, 4


def _given(data: Bytes) -> Tuple[bytearray, int]:
    """A buffer that a call may write, and the length of the data in it: a bytearray, or a copy of what else has bytes."""
    if isinstance(data, bytearray) and data:
        return data, len(data)
    buffer = buffer_of(data, 1)
    return buffer, len(buffer) - 1


def _returned(data: Bytes, buffer: bytearray, length: int) -> Union[bytes, bytearray]:
    return data if isinstance(data, bytearray) else first(buffer, length)


class Aes(Secret):
    """A key of 16, 24 or 32 bytes. Threads may share it. `wipe`, or the end of a `with`, wipes its key schedule, not
    the bytes given. It waits for calls that run, and later ones raise ValueError."""

    def __init__(self, key: Bytes) -> None:
        self._key, self._uses = _Key(), Uses()
        given = bytes_of(key)
        if _c.fotsgure_aes_set_key(self._key, given, len(given)) != _DONE:
            raise ValueError("a key has 16, 24 or 32 bytes")

    def _blocks(self, call: Any, data: Bytes) -> Union[bytes, bytearray]:
        buffer, length = _given(data)
        if length % 16:
            raise ValueError("the length isn't a multiple of 16 bytes")
        with self._uses:
            status = call(self._key, address(buffer), length // 16)
        if status != _DONE:
            raise ValueError("the key was wiped")
        return _returned(data, buffer, length)

    def encrypt(self, data: Bytes) -> Union[bytes, bytearray]:
        """Encrypts each block: returns new bytes, or the bytearray, in place."""
        return self._blocks(_c.fotsgure_aes_encrypt_blocks, data)

    def decrypt(self, data: Bytes) -> Union[bytes, bytearray]:
        """Decrypts each block: returns new bytes, or the bytearray, in place."""
        return self._blocks(_c.fotsgure_aes_decrypt_blocks, data)

    def keystream(self, iv: Bytes, position: int = 0) -> "Keystream":
        """Counter mode from an initial counter block on, at a position of its keystream."""
        return Keystream(self, iv, position)

    def wipe(self) -> None:
        with self._uses.alone():
            _c.fotsgure_aes_wipe(self._key)

    def __enter__(self) -> "Aes":
        return self

    def __exit__(self, *_: Any) -> None:
        self.wipe()


class Keystream(Secret):
    """Counter mode under a key, from an initial counter block of 16 bytes on. Threads that share it wait for each
    other, so that no two get the same keystream. In a process that was forked `apply` raises ValueError."""

    def __init__(self, aes: Aes, iv: Bytes, position: int = 0) -> None:
        given = bytes_of(iv)
        if len(given) != 16:
            raise ValueError("an initial counter block has 16 bytes")
        position = number(position, 2 ** 64 - 1, "a position")
        self._aes, self._ctr, self._turn = aes, _Ctr((ctypes.c_uint8 * 16)(*given), position), Turn("keystream")

    @property
    def position(self) -> int:
        """How many bytes of the keystream come before the next."""
        return int(self._ctr.position)

    def apply(self, data: Bytes) -> Union[bytes, bytearray]:
        """Encrypts or decrypts from the position on: returns new bytes, or the bytearray, in place."""
        buffer, length = _given(data)
        with self._turn, self._aes._uses:
            status = _c.fotsgure_aes_add_keystream(self._aes._key, self._ctr, address(buffer), length)
        if status == _KEYSTREAM_END:
            raise ValueError("the keystream ends")
        if status != _DONE:
            raise ValueError("the key was wiped")
        return _returned(data, buffer, length)
