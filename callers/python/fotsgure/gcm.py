"""Authenticated encryption by AES-GCM-SIV and AES-GCM over the shared library by ctypes.

    with GcmSiv(key) as siv:                            AES-GCM-SIV (RFC 8452)
        nonce, sealed = siv.seal_random(text, additional) under a nonce that is drawn at random: send both
        text = siv.open(nonce, sealed, additional)      raises Refused if anything was changed

    with Gcm(key, counter) as gcm:                      counter: what was stored, or bytes(12) with a new key
        nonce, sealed = gcm.seal_next(text, additional) under the next nonce: store gcm.counter, then send both
        text = gcm.open(nonce, sealed, additional)      raises Refused if anything was changed
        sealed = gcm.seal(nonce, text, additional)      under a nonce of yours; the tag's 16 bytes are the last

        with gcm.begin(nonce) as message:               a message in pieces: message.additional(bytes), and then
            message.encrypt(bytes) .., message.finish() the tag, or
            message.verify(bytes) .., message.accept(tag), message.decrypt(bytes) ..    the same text in both passes
        nonce, message = gcm.begin_next()               under the next nonce

A key is os.urandom(32), kept where nobody else reads it. Don't use a password as a key. In GCM no nonce may be used twice
under a key. Random ones have 12 bytes or more; if any nonce of a key is random or has another length than 12 bytes, use a
new key before 2^32 messages. In AES-GCM-SIV a nonce that is used twice only shows whether the two messages are the same.

What counts as bytes: bytes, a bytearray, a memoryview, an array.array, an array of numpy. Any object does that has a length
and a C-contiguous buffer of numbers or single bytes, in one dimension or more. Its bytes are used. A view with gaps raises
BufferError. Anything else raises TypeError: a number doesn't count as bytes, not even one of numpy or ctypes.

FOTSGURE_GCM names the library's file. Without it, the module loads the library that pip built, or the loader searches for one.
Python copies bytes as it likes, so only the prepared key is wiped.
"""
import contextlib
import ctypes
import enum
from typing import Any, Optional, Sequence, Tuple

from .library import Bytes, Secret, Turn, Uses, Word, address, buffer_of, bytes_of, bytes_or_none, first, load

__all__ = ["Gcm", "GcmSiv", "Message", "Refused", "VERSION"]


class Refused(Exception):
    """The tag isn't that of this key, nonce, additional data and text, or they have lengths that no message has."""


class _Key(Secret, ctypes.Structure):
    _fields_ = [("key_length", Word), ("round_keys", ctypes.c_uint8 * 240),
                ("multiples", ctypes.c_uint8 * 1536)]


class _SivKey(Secret, ctypes.Structure):
    _fields_ = [("key_length", Word), ("round_keys", Word * 120)]


class _Message(Secret, ctypes.Structure):
    _fields_ = [("numbers", ctypes.c_uint64 * 4), ("blocks", ctypes.c_uint8 * 48)]


class _Counter(Secret, ctypes.Structure):
    _fields_ = [("next", ctypes.c_uint8 * 12)]


_key, _message, _counter = ctypes.POINTER(_Key), ctypes.POINTER(_Message), ctypes.POINTER(_Counter)
_siv, _Nonce, _Tag = ctypes.POINTER(_SivKey), ctypes.c_char * 12, ctypes.c_char * 16
_read, _written = [ctypes.c_char_p, ctypes.c_size_t], [ctypes.c_void_p, ctypes.c_size_t]
_tag, _status = ctypes.c_void_p, ctypes.c_uint32
_c = load("fotsgure_gcm", 4, [
    ("set_key", [_key, *_read], _status),
    ("wipe", [_key], None),
    ("seal", [_key, *_read, *_read, *_written, _tag], _status),
    ("seal_next", [_key, _counter, ctypes.c_void_p, *_read, *_written, _tag], _status),
    ("open", [_key, *_read, *_read, *_written, *_written], _status),
    ("begin", [_key, _message, *_read], _status),
    ("begin_next", [_key, _message, _counter, ctypes.c_void_p], _status),
    ("additional", [_key, _message, *_read], _status),
    ("encrypt", [_key, _message, *_written], _status),
    ("finish", [_key, _message, _tag], _status),
    ("verify", [_key, _message, *_read], _status),
    ("accept", [_key, _message, *_read], _status),
    ("decrypt", [_key, _message, *_written], _status),
    ("decrypt_unverified", [_key, _message, *_written], _status),
    ("wipe_message", [_message], None),
    ("siv_set_key", [_siv, *_read], _status),
    ("siv_wipe", [_siv], None),
    ("siv_seal", [_siv, ctypes.c_char_p, *_read, *_written, _tag], _status),
    ("siv_seal_random", [_siv, ctypes.c_void_p, *_read, *_written, _tag], _status),
    ("siv_open", [_siv, ctypes.c_char_p, *_read, *_written, _tag], _status),
])
VERSION: int = _c.fotsgure_gcm_version()


class _Status(enum.IntEnum):
    """The statuses of fotsgure_gcm.h that these calls return."""

    DONE = 0
    KEY_LENGTH = 1
    NO_KEY = 2
    NONCE_LENGTH = 3
    TAG_LENGTH = 4
    TOO_LONG = 5
    REFUSED = 6
    NONCES_END = 7
    OUT_OF_TURN = 8
    NO_RANDOMNESS = 9


_WORDS = {
    _Status.KEY_LENGTH: "a key has 16, 24 or 32 bytes",
    _Status.NO_KEY: "the key was wiped",
    _Status.NONCE_LENGTH: "a nonce has one byte or more, in AES-GCM-SIV 12",
    _Status.TAG_LENGTH: "a tag has 16 bytes",
    _Status.TOO_LONG: "more bytes than the standard allows, or more than were verified",
    _Status.REFUSED: "the message was changed, or sealed under another key",
    _Status.NONCES_END: "no nonce is left: use a new key",
    _Status.OUT_OF_TURN: "the calls came in the wrong order, for example text after finish, or decrypt before accept",
    _Status.NO_RANDOMNESS: "the system gave no randomness for a nonce",
}
# What shows that a message was changed: a nonce, a tag or a text with a length that no message has, or another tag.
_CHANGED = (_Status.NONCE_LENGTH, _Status.TAG_LENGTH, _Status.TOO_LONG, _Status.REFUSED)


def _check(status: int, changed: Sequence[_Status] = ()) -> None:
    """Raises ValueError for a status but DONE, and Refused for those of `changed`."""
    if status != _Status.DONE:
        raise (Refused if status in changed else ValueError)(_WORDS[_Status(status)])


def _parts(buffer: bytearray) -> Tuple[Any, int, Any]:
    """Where a text is, its length, and where the tag after it is. A buffer that is too short for a tag raises Refused."""
    length = len(buffer) - 16
    _check(_Status.DONE if length >= 0 else _Status.TAG_LENGTH, _CHANGED)
    return address(buffer), length, address(buffer, length)


class GcmSiv(Secret):
    """A key of AES-GCM-SIV, of 16 or 32 bytes. Threads may share it. `wipe`, or the end of a `with`, wipes the prepared
    key, not the bytes given. It waits for calls that run, and later ones raise ValueError."""

    def __init__(self, key: Bytes) -> None:
        given = bytes_of(key)
        self._key, self._uses = _SivKey(), Uses()
        if _c.fotsgure_gcm_siv_set_key(self._key, given, len(given)) != _Status.DONE:
            raise ValueError("a key of AES-GCM-SIV has 16 or 32 bytes")

    def seal_random(self, text: Bytes, additional: Optional[Bytes] = None) -> Tuple[bytes, bytes]:
        """Encrypts under a nonce that is drawn at random: returns that nonce, and the encrypted text followed by its tag."""
        nonce, about, buffer = _Nonce(), bytes_or_none(additional), buffer_of(text, 16)
        with self._uses:
            _check(_c.fotsgure_gcm_siv_seal_random(self._key, nonce, about, len(about), *_parts(buffer)))
        return nonce.raw, bytes(buffer)

    def seal(self, nonce: Bytes, text: Bytes, additional: Optional[Bytes] = None) -> bytes:
        """Encrypts under a nonce of yours, of 12 bytes: returns the encrypted text followed by the tag."""
        given, about, buffer = bytes_of(nonce), bytes_or_none(additional), buffer_of(text, 16)
        _check(_Status.DONE if len(given) == 12 else _Status.NONCE_LENGTH)
        with self._uses:
            _check(_c.fotsgure_gcm_siv_seal(self._key, given, about, len(about), *_parts(buffer)))
        return bytes(buffer)

    def open(self, nonce: Bytes, sealed: Bytes, additional: Optional[Bytes] = None) -> bytes:
        """Decrypts what `seal` or `seal_random` returned, or raises Refused: also if the nonce doesn't have 12 bytes, or the tag
        isn't whole."""
        given, about, buffer = bytes_of(nonce), bytes_or_none(additional), buffer_of(sealed, 0)
        _check(_Status.DONE if len(given) == 12 else _Status.NONCE_LENGTH, _CHANGED)
        text, length, tag = _parts(buffer)
        with self._uses:
            _check(_c.fotsgure_gcm_siv_open(self._key, given, about, len(about), text, length, tag), _CHANGED)
        return first(buffer, length)

    def wipe(self) -> None:
        with self._uses.alone():
            _c.fotsgure_gcm_siv_wipe(self._key)

    def __enter__(self) -> "GcmSiv":
        return self

    def __exit__(self, *_: Any) -> None:
        self.wipe()


class Gcm(Secret):
    """A key of 16, 24 or 32 bytes. `wipe`, or the end of a `with`, wipes the prepared key, not the bytes given. It
    waits for calls that run, and later ones raise ValueError. `counter` is the next nonce of `seal_next`, and None
    without one. Store it before a message is sent, and give it to the next Gcm of the same key. Threads may share a Gcm,
    but let one at a time call `seal_next` and store `counter`, so that the highest is stored last. In a process that was
    forked, `seal_next`, `begin_next` and `counter` raise ValueError: two processes that counted on from the same number
    would use the same nonces."""

    def __init__(self, key: Bytes, counter: Optional[Bytes] = None) -> None:
        given, start = bytes_of(key), None if counter is None else bytes_of(counter)
        if start is not None and len(start) != 12:
            raise ValueError("a counter has 12 bytes")
        self._key, self._turn, self._uses = _Key(), Turn("counter"), Uses()
        self._counter = None if start is None else _Counter.from_buffer_copy(start)
        _check(_c.fotsgure_gcm_set_key(self._key, given, len(given)))

    @property
    def counter(self) -> Optional[bytes]:
        if self._counter is None:
            return None
        with self._turn:
            return bytes(self._counter.next)

    def seal(self, nonce: Bytes, text: Bytes, additional: Optional[Bytes] = None) -> bytes:
        """Encrypts: returns the encrypted text followed by the tag."""
        given, about, buffer = bytes_of(nonce), bytes_or_none(additional), buffer_of(text, 16)
        with self._uses:
            _check(_c.fotsgure_gcm_seal(self._key, given, len(given), about, len(about), *_parts(buffer)))
        return bytes(buffer)

    def seal_next(self, text: Bytes, additional: Optional[Bytes] = None) -> Tuple[bytes, bytes]:
        """Encrypts under the counter's next nonce: returns that nonce, and what `seal` returns."""
        nonce, about, buffer = _Nonce(), bytes_or_none(additional), buffer_of(text, 16)
        with self._turn, self._uses:
            _check(_c.fotsgure_gcm_seal_next(self._key, self._counting(), nonce, about, len(about), *_parts(buffer)))
        return nonce.raw, bytes(buffer)

    def _counting(self) -> _Counter:
        if self._counter is None:
            raise ValueError("no counter was given")
        return self._counter

    def open(self, nonce: Bytes, sealed: Bytes, additional: Optional[Bytes] = None) -> bytes:
        """Decrypts what `seal` returned, or raises Refused: also if the nonce is empty, or the tag isn't whole."""
        given, about, buffer = bytes_of(nonce), bytes_or_none(additional), buffer_of(sealed, 0)
        text, length, tag = _parts(buffer)
        with self._uses:
            _check(_c.fotsgure_gcm_open(self._key, given, len(given), about, len(about), text, length, tag, 16), _CHANGED)
        return first(buffer, length)

    def begin(self, nonce: Bytes) -> "Message":
        """Begins a message in pieces under a nonce of yours."""
        given, message = bytes_of(nonce), Message(self)
        with self._uses:
            _check(_c.fotsgure_gcm_begin(self._key, message._message, given, len(given)))
        return message

    def begin_next(self) -> Tuple[bytes, "Message"]:
        """Begins a message in pieces under the counter's next nonce, and returns both. Store the counter before anything
        of the message is sent."""
        nonce, message = _Nonce(), Message(self)
        with self._turn, self._uses:
            _check(_c.fotsgure_gcm_begin_next(self._key, message._message, self._counting(), nonce))
        return nonce.raw, message

    def wipe(self) -> None:
        with self._uses.alone():
            _c.fotsgure_gcm_wipe(self._key)

    def __enter__(self) -> "Gcm":
        return self

    def __exit__(self, *_: Any) -> None:
        self.wipe()


class Message(Secret):
    """A message in pieces of any size, which `Gcm.begin` makes. Calls in the wrong order raise ValueError, and so do
    all calls but `wipe` in a process that was forked. Threads that share a message wait for each other, and come in any
    order. `wipe`, or the end of a `with`, wipes it: it is as secret as the key. After an encrypted piece its nonce is
    used, even if the message is abandoned."""

    def __init__(self, gcm: Gcm) -> None:
        self._gcm, self._message, self._turn = gcm, _Message(), Turn("message")

    def _call(self, call: Any, *arguments: Any, changed: Sequence[_Status] = ()) -> None:
        with self._turn, self._gcm._uses:
            _check(call(self._gcm._key, self._message, *arguments), changed)

    def _takes(self, call: Any, data: Bytes, changed: Sequence[_Status] = ()) -> None:
        given = bytes_of(data)
        self._call(call, given, len(given), changed=changed)

    def _turns(self, call: Any, data: Bytes) -> bytes:
        buffer = buffer_of(data, 1)
        length = len(buffer) - 1
        self._call(call, address(buffer), length)
        return first(buffer, length)

    def additional(self, data: Bytes) -> None:
        """Takes a piece of the additional data. All of it comes before the text."""
        self._takes(_c.fotsgure_gcm_additional, data)

    def encrypt(self, text: Bytes) -> bytes:
        """Encrypts a piece of the text, and returns it."""
        return self._turns(_c.fotsgure_gcm_encrypt, text)

    def finish(self) -> bytes:
        """Ends a message that was encrypted, and returns its tag."""
        tag = _Tag()
        self._call(_c.fotsgure_gcm_finish, tag)
        return tag.raw

    def verify(self, sealed: Bytes) -> None:
        """Takes a piece of an encrypted text, whose tag `accept` compares later."""
        self._takes(_c.fotsgure_gcm_verify, sealed)

    def accept(self, tag: Bytes) -> None:
        """Raises Refused, and wipes the message, if the tag is not that of what has come."""
        try:
            self._takes(_c.fotsgure_gcm_accept, tag, _CHANGED)
        except Refused:
            self.wipe()
            raise

    def decrypt(self, sealed: Bytes) -> bytes:
        """Decrypts a piece of the text whose tag was right: the same text once more, from its beginning on. More than
        was verified raises ValueError. Count the bytes of both passes to see whether all of it came."""
        return self._turns(_c.fotsgure_gcm_decrypt, sealed)

    def decrypt_unverified(self, sealed: Bytes) -> bytes:
        """Takes a piece as `verify` does and decrypts it at once. NOBODY HAS AUTHENTICATED WHAT IT RETURNS: use nothing
        of it before `accept` has returned, and forget it if that raises."""
        return self._turns(_c.fotsgure_gcm_decrypt_unverified, sealed)

    def wipe(self) -> None:
        with contextlib.ExitStack() as stack:
            if self._turn.is_ours():
                stack.enter_context(self._turn)
            _c.fotsgure_gcm_wipe_message(self._message)

    def __enter__(self) -> "Message":
        return self

    def __exit__(self, *_: Any) -> None:
        self.wipe()
