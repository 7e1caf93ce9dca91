"""What mypy accepts as bytes and as a buffer to write, and, in the last two lines, what it refuses."""
import array
import mmap

from fotsgure.aead import AESGCM, InvalidTag
from fotsgure.gcm import GcmSiv, Refused

siv, aead = GcmSiv(memoryview(bytes(32))), AESGCM(bytearray(32))
nonce, sealed = siv.seal_random(array.array("d", [1.5]), mmap.mmap(-1, 4096))
try:
    text: bytes = siv.open(nonce, sealed)
    length: int = aead.encrypt_into(nonce, text, None, bytearray(24))
except (InvalidTag, Refused):
    pass
GcmSiv(5)
aead.encrypt_into(nonce, b"", None, bytes(16))
