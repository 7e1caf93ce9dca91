"""The example of FIPS 197, C.3: a block is encrypted under a key of 32 bytes, and decrypted again. Bare blocks protect no
message: see example_gcm.py."""
import sys

from fotsgure.aes import Aes

plain = bytes.fromhex("00112233445566778899aabbccddeeff")
with Aes(bytes(range(32))) as aes:  # raises ValueError for a key of another length
    block = aes.encrypt(plain)
    opened = aes.decrypt(block)
# the end of `with` wiped the key schedule
print(f"{block.hex()} is the standard's 8ea2b7ca516745bfeafc49904b496089")
sys.exit(block.hex() != "8ea2b7ca516745bfeafc49904b496089" or opened != plain)
