"""AESGCMSIV of the package cryptography over the provider: messages of RFC 8452, appendix C.1 and C.2, random ones there and back, and what
is refused. The last line is `N messages`."""
import os
import sys

from cryptography.exceptions import InvalidTag
from cryptography.hazmat.primitives.ciphers.aead import AESGCMSIV

NONCE = bytes([3]) + bytes(11)
ROWS = (
    (16, b"", b"\1", "b5d839330ac7b786" "578782fff6013b815b287c22493a364c"),
    (16, b"\1", b"\2", "1e6daba35669f427" "3b0a1a2560969cdf790d99759abd1508"),
    (32, b"", b"\1", "c2ef328e5c71c83b" "843122130f7364b761e0b97427e3df28"),
    (32, b"\1", b"\2", "1de22967237a8132" "91213f267e3b452f02d01ae33e4ec854"),
)
wrong = [row for row in ROWS if AESGCMSIV(bytes([1]) + bytes(row[0] - 1)).encrypt(NONCE, row[2] + bytes(7), row[1]).hex() != row[3]]
for length in range(1000):
    aead, nonce, text, data = AESGCMSIV(os.urandom(16 + length % 2 * 16)), os.urandom(12), os.urandom(length), os.urandom(length // 3)
    sealed = aead.encrypt(nonce, text, data)
    changed = bytearray(sealed)
    changed[length // 2] ^= 1
    try:
        aead.decrypt(nonce, bytes(changed), data)
        wrong.append(length)
    except InvalidTag:
        if aead.decrypt(nonce, sealed, data) != text:
            wrong.append(length)
print(f"{len(ROWS) + 1000} messages" if not wrong else f"wrong: {wrong}")
sys.exit(bool(wrong))
