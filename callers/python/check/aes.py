"""The module for Python: FIPS 197, appendix C; slices of 0 to 40 blocks against single calls; SP 800-38A, F.5, cut at every place; every
refusal; arguments that count neither as bytes nor as positions. The last line is `N passed, M failed`."""
import array
import sys

from fotsgure.aes import VERSION, Aes

# FIPS 197, appendix C: the key counts from 00 on.
C_PLAIN = bytes.fromhex("00112233445566778899aabbccddeeff")
C_ROWS = (
    (16, "69c4e0d86a7b0430d8cdb78070b4c55a"),
    (24, "dda97ca4864cdfe06eaf70a0ec0d7191"),
    (32, "8ea2b7ca516745bfeafc49904b496089"),
)
# SP 800-38A, F.5.1, F.5.3 and F.5.5.
F_IV = bytes.fromhex("f0f1f2f3f4f5f6f7f8f9fafbfcfdfeff")
F_PLAIN = bytes.fromhex(
    "6bc1bee22e409f96e93d7e117393172aae2d8a571e03ac9c9eb76fac45af8e51"
    "30c81c46a35ce411e5fbc1191a0a52eff69f2445df4f9b17ad2b417be66c3710"
)
F_ROWS = (
    ("2b7e151628aed2a6abf7158809cf4f3c", "874d6191b620e3261bef6864990db6ce9806f66b7970fdff8617187bb9fffdff"
     "5ae4df3edbd5d35e5b4f09020db03eab1e031dda2fbe03d1792170a0f3009cee"),
    ("8e73b0f7da0e6452c810f32b809079e562f8ead2522c6b7b",
     "1abc932417521ca24f2b0459fe7e6e0b090339ec0aa6faefd5ccc2c6f4ce8e94"
     "1e36b26bd1ebc670d1bd1d665620abf74f78a7f6d29809585a97daec58c6b050"),
    ("603deb1015ca71be2b73aef0857d77811f352c073b6108d72d9810a30914dff4",
     "601ec313775789a5b7a7f504bbf3d228f443e3ca4d62b59aca84e990cacaf5c5"
     "2b0930daa23de94ce87017ba2d84988ddfc9c58db67aada613c2dd08457941a6"),
)
checks = []


def expect(holds, what):
    checks.append(holds)
    if not holds:
        print("failed:", what)


def refused(call, error=ValueError):
    try:
        call()
    except error:
        return True
    return False


expect(VERSION == 400, "version")
for size, digits in C_ROWS:
    aes = Aes(bytes(range(size)))
    expect(aes.encrypt(C_PLAIN).hex() == digits, f"appendix C, {size} bytes, encrypted")
    expect(aes.decrypt(bytes.fromhex(digits)) == C_PLAIN, f"appendix C, {size} bytes, decrypted")
    text = bytes(i * i % 251 for i in range(16 * 40))
    single = b"".join(aes.encrypt(text[i:i + 16]) for i in range(0, len(text), 16))
    expect(all(aes.encrypt(text[:16 * n]) == single[:16 * n] for n in range(41)), f"0 to 40 blocks, {size} bytes")
    place = bytearray(text)
    expect(aes.encrypt(place) is place and place == single and aes.decrypt(place) == text, f"in place, {size} bytes")
    expect(refused(lambda: aes.encrypt(bytes(17))), "17 bytes are no blocks")
    aes.wipe()
    expect(refused(lambda: aes.encrypt(bytes(16))), "a wiped key is refused")
for key, digits in F_ROWS:
    with Aes(bytes.fromhex(key)) as aes:
        cipher = bytes.fromhex(digits)
        for cut in range(65):
            stream = aes.keystream(F_IV)
            expect(stream.apply(F_PLAIN[:cut]) + stream.apply(F_PLAIN[cut:]) == cipher and stream.position == 64,
                f"F.5, cut at {cut}")
        expect(aes.keystream(F_IV, 21).apply(cipher[21:]) == F_PLAIN[21:], "F.5, taken up at 21")
        end = aes.keystream(F_IV, 2 ** 64 - 2)
        expect(refused(lambda: end.apply(bytes(2))) and end.position == 2 ** 64 - 2 and len(end.apply(bytes(1))) == 1,
            "the end is refused")
expect(all(refused(lambda: Aes(bytes(size))) for size in range(34) if size not in (16, 24, 32)),
    "other lengths are refused")

# What has no bytes is refused, and not read as zeros, as bytes(16) and bytes([0] * 16) would be.
aes = Aes(bytes(range(16)))
for thing in (16, 0, -1, True, 1.5, None, [0] * 16, (0,) * 16, [256] * 16, range(16), "0123456789abcdef", object()):
    expect(refused(lambda: Aes(thing), TypeError), f"{thing!r} is no key")
    expect(refused(lambda: aes.encrypt(thing), TypeError), f"{thing!r} is no text to encrypt")
    expect(refused(lambda: aes.decrypt(thing), TypeError), f"{thing!r} is no text to decrypt")
    expect(refused(lambda: aes.keystream(thing), TypeError), f"{thing!r} is no initial counter block")
    expect(refused(lambda: aes.keystream(F_IV).apply(thing), TypeError), f"{thing!r} is no text for a keystream")
expect(refused(lambda: aes.encrypt(memoryview(bytes(64))[::2]), BufferError), "bytes with gaps are refused")
for position in (-1, -16, 2 ** 64, 2 ** 64 + 16, 2 ** 200):
    expect(refused(lambda: aes.keystream(F_IV, position)), f"no keystream has a position {position}")
for position in (1.0, "1", None, b"1"):
    expect(refused(lambda: aes.keystream(F_IV, position), TypeError), f"{position!r} is no position")
expect(aes.keystream(F_IV, 2 ** 64 - 1).position == 2 ** 64 - 1, "the last position")
# All calls accept whatever has bytes.
words, text = array.array("I", range(16)), array.array("I", range(16)).tobytes()
expect(words.itemsize == 4 and aes.encrypt(words) == aes.encrypt(text) and len(aes.encrypt(words)) == 64, "an array")
expect(words.tobytes() == text, "an array is not changed in place")
expect(Aes(memoryview(bytearray(range(16)))).encrypt(C_PLAIN) == aes.encrypt(C_PLAIN), "a key in a memoryview")
expect(aes.keystream(words[:4]).apply(words) == aes.keystream(text[:16]).apply(text), "an array as a counter block")
expect(aes.encrypt(b"") == b"" and aes.encrypt(bytearray()) == bytearray(), "no bytes")
print(f"{sum(checks)} passed, {len(checks) - sum(checks)} failed")
sys.exit(not all(checks))
