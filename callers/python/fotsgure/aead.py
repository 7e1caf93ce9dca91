"""AESGCM and AESGCMSIV as version 48 of the package cryptography has them (hazmat.primitives.ciphers.aead), over the
proved library: change the import alone.

It has that package's calls and types of errors, and the words of its ValueErrors and BufferErrors. It raises that package's
InvalidTag if the package is installed, and else one of its own. It accepts more types as bytes: the head of fotsgure.gcm
lists them. If `decrypt_into` raises InvalidTag, the buffer is unchanged. That package has then written text into it that
nobody authenticated. RFC 8452 has no keys of 24 bytes, and so AESGCMSIV has none.
"""
import operator
import os
from typing import Optional, Tuple, Union

from .gcm import Gcm, GcmSiv, Refused
from .library import Bytes, Secret, Writable, length_of, view_of

__all__ = ["AESGCM", "AESGCMSIV", "InvalidTag"]

try:
    from cryptography.exceptions import InvalidTag
except ImportError:
    class InvalidTag(Exception):  # type: ignore[no-redef]
        """The message, its nonce or its associated data was changed, or the key is another."""


class _Aead(Secret):
    """What AESGCM and AESGCMSIV share: how a key is drawn and checked, and the calls on messages."""

    _mode: Union[Gcm, GcmSiv]
    _sizes: Tuple[int, ...] = (128, 192, 256)
    _sizes_in_words = "128, 192, or 256"
    _nonces = range(8, 129)
    _wrong_nonce = "Nonce must be between 8 and 128 bytes"

    @classmethod
    def generate_key(cls, bit_length: int) -> bytes:
        """A key from the system's generator."""
        if operator.index(bit_length) not in cls._sizes:
            raise ValueError(f"bit_length must be {cls._sizes_in_words}")
        return os.urandom(bit_length // 8)

    @classmethod
    def _checked(cls, key: Bytes, name: str) -> memoryview:
        view = view_of(key)
        if view.nbytes * 8 not in cls._sizes:
            raise ValueError(f"{name} key must be {cls._sizes_in_words} bits.")
        return view

    def encrypt(self, nonce: Bytes, data: Bytes, associated_data: Optional[Bytes]) -> bytes:
        """Encrypts: returns the encrypted data followed by the tag of 16 bytes."""
        self._length(nonce, data, associated_data)
        return self._mode.seal(nonce, data, associated_data)

    def encrypt_into(self, nonce: Bytes, data: Bytes, associated_data: Optional[Bytes], buf: Writable) -> int:
        """Writes what `encrypt` returns into a buffer of exactly that length, and returns the length."""
        place = _writable(buf)
        _fits(place, self._length(nonce, data, associated_data) + 16)
        return _put(place, self._mode.seal(nonce, data, associated_data))

    def decrypt(self, nonce: Bytes, data: Bytes, associated_data: Optional[Bytes]) -> bytes:
        """Decrypts, or raises InvalidTag: also for data of fewer than 16 bytes, whose tag can't be whole."""
        self._length(nonce, data, associated_data)
        return self._opened(nonce, data, associated_data)

    def decrypt_into(self, nonce: Bytes, data: Bytes, associated_data: Optional[Bytes], buf: Writable) -> int:
        """Writes what `decrypt` returns into a buffer of exactly that length, and returns the length."""
        place = _writable(buf)
        length = self._length(nonce, data, associated_data)
        if length < 16:
            raise InvalidTag
        _fits(place, length - 16)
        return _put(place, self._opened(nonce, data, associated_data))

    def _opened(self, nonce: Bytes, data: Bytes, associated_data: Optional[Bytes]) -> bytes:
        try:
            return self._mode.open(nonce, data, associated_data)
        except Refused:
            raise InvalidTag from None

    def _length(self, nonce: Bytes, data: Bytes, associated_data: Optional[Bytes]) -> int:
        """The length of the data, if all three are of a kind and a length that the calls accept."""
        nonce_length, length = length_of(nonce), length_of(data)
        if max(length, 0 if associated_data is None else length_of(associated_data)) > 2 ** 31 - 1:
            raise OverflowError("Data or associated data too long. Max 2**31 - 1 bytes")
        if nonce_length not in self._nonces:
            raise ValueError(self._wrong_nonce)
        return length


class AESGCMSIV(_Aead):
    """A key of 16 or 32 bytes. Nonces have 12; one that is used twice only shows whether the two messages are the same."""

    _sizes = (128, 256)
    _sizes_in_words = "128 or 256"
    _nonces = range(12, 13)
    _wrong_nonce = "Nonce must be 12 bytes long"

    def __init__(self, key: Bytes) -> None:
        self._mode = GcmSiv(self._checked(key, "AES-GCM-SIV"))


class AESGCM(_Aead):
    """A key of 16, 24 or 32 bytes. A nonce is used once under a key. Random ones of 12 bytes: for at most 2^32
    messages."""

    def __init__(self, key: Bytes) -> None:
        self._mode = Gcm(self._checked(key, "AESGCM"))


def _writable(buf: Writable) -> memoryview:
    view = view_of(buf)
    if view.readonly:
        raise TypeError("the buffer is not writable")
    return view


def _fits(place: memoryview, length: int) -> None:
    if place.nbytes != length:
        raise ValueError(f"buffer must be {length} bytes")


def _put(place: memoryview, data: bytes) -> int:
    if data:
        place.cast("B")[:] = data
    return len(data)
