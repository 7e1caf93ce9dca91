"""The modules for Python, fotsgure.gcm and fotsgure.aead. It tries test cases 2, 4 and 16 of the submission of GCM (McGrew and Viega,
appendix B); texts of 0 to 300 bytes there and back; every refusal; arguments that don't count as bytes; that nothing shows a key; memory;
threads and forks. It compares AESGCM with that of the package cryptography 48 if it is installed. The last line is `N passed, M failed`."""
import array
import copy
import ctypes
import os
import pickle
import signal
import subprocess
import sys
import threading
import traceback
import tracemalloc

from fotsgure.aead import AESGCM, AESGCMSIV, InvalidTag
from fotsgure.aes import Aes
from fotsgure.gcm import VERSION, Gcm, GcmSiv, Refused

KEY = bytes.fromhex("feffe9928665731c6d6a8f9467308308")
NONCE = bytes.fromhex("cafebabefacedbaddecaf888")
ADDITIONAL = bytes.fromhex("feedfacedeadbeeffeedfacedeadbeefabaddad2")
PLAIN = bytes.fromhex("d9313225f88406e5a55909c5aff5269a86a7a9531534f7da2e4c303d8a318a72"
                      "1c3c0c95956809532fcf0e2449a6b525b16aedf5aa0de657ba637b39")
CASES = (
    (bytes(16), bytes(12), b"", bytes(16), "0388dace60b6a392f328c2b971b2fe78" "ab6e47d42cec13bdf53a67b21257bddf"),
    (KEY, NONCE, ADDITIONAL, PLAIN, "42831ec2217774244b7221b784d0d49ce3aa212f2c02a4e035c17e2329aca12e"
     "21d514b25466931c7d8f6a5aac84aa051ba30b396a0aac973d58e091" "5bc94fbc3221a5db94fae95ae7121a47"),
    (KEY + KEY, NONCE, ADDITIONAL, PLAIN, "522dc1f099567d07f47f37a32a84427d643a8cdcbfe5c0c97598a2bd2555d1aa"
     "8cb08e48590dbb3da7b08b1056828838c5f61e6393ba7a0abcc9f662" "76fc6ece0f4e1768cddf8853bb2d551b"),
)
checks = []


def expect(holds, what):
    checks.append(holds)
    if not holds:
        print("failed:", what)


def raises(error, call, *arguments):
    try:
        call(*arguments)
    except error:
        return True
    return False


for key, nonce, additional, plain, sealed in CASES:
    with Gcm(key) as gcm:
        expect(gcm.seal(nonce, plain, additional).hex() == sealed, "seal")
        expect(gcm.open(nonce, bytes.fromhex(sealed), additional) == plain, "open")
        expect(raises(Refused, gcm.open, nonce, bytes.fromhex(sealed), additional + b"\0"), "other additional data")
with Gcm(KEY, bytes(12)) as gcm:
    for length in range(301):
        text = bytes(i % 251 for i in range(length))
        nonce, sealed = gcm.seal_next(text, text[:length // 3])
        expect(gcm.open(nonce, sealed, text[:length // 3]) == text, f"{length} bytes")
        changed = bytearray(sealed)
        changed[length // 2] ^= 4
        expect(raises(Refused, gcm.open, nonce, changed, text[:length // 3]), f"{length} bytes, changed")
    expect(int.from_bytes(gcm.counter, "big") == 301, "the counter")
    expect(raises(Refused, gcm.open, NONCE, bytes(15)), "a tag that was cut")
    expect(raises(Refused, gcm.open, b"", bytes(16)), "a nonce that was cut")
    expect(raises(ValueError, gcm.seal, b"", PLAIN), "no nonce")
    expect(Gcm(KEY, gcm.counter).seal_next(b"")[0] == bytes(10) + b"\x01\x2d", "the stored counter")
with Gcm(KEY) as gcm:
    for piece in range(1, 40):
        message = gcm.begin(NONCE)
        for at in range(0, len(ADDITIONAL), piece):
            message.additional(ADDITIONAL[at:at + piece])
        sealed = b"".join(message.encrypt(PLAIN[at:at + piece]) for at in range(0, len(PLAIN), piece))
        tag = message.finish()
        expect((sealed + tag).hex() == CASES[1][4], f"pieces of {piece}")
        expect(raises(ValueError, message.encrypt, b""), "text after the end")
        message = gcm.begin(NONCE)
        message.additional(ADDITIONAL)
        for at in range(0, len(sealed), piece):
            message.verify(sealed[at:at + piece])
        expect(raises(ValueError, message.decrypt, sealed[:1]), "text before the tag")
        message.accept(tag)
        opened = b"".join(message.decrypt(sealed[at:at + piece]) for at in range(0, len(sealed), piece))
        expect(opened == PLAIN, f"pieces of {piece}, back")
        other = gcm.begin(NONCE)
        other.verify(sealed)
        expect(raises(Refused, other.accept, tag), "a message without its additional data")
        other = gcm.begin(NONCE)
        expect(raises(Refused, other.accept, tag[:15]), "a tag that was cut, of pieces")
        expect(raises(ValueError, other.verify, sealed), "a message whose tag was refused is over")
expect(raises(ValueError, gcm.seal, NONCE, PLAIN), "a wiped key")
expect(raises(ValueError, Gcm(KEY, b"\xff" * 12).seal_next, PLAIN), "no nonce is left")
expect(raises(ValueError, Gcm(KEY).seal_next, PLAIN), "no counter")
expect(raises(ValueError, Gcm, KEY, bytes(13)), "a counter of another length")
expect(raises(ValueError, Gcm, KEY[1:]), "a key of another length")
expect(VERSION == 400, "the version")

# AES-GCM-SIV: messages of RFC 8452, appendices C.1 and C.2, under the key 1, 0 .. and the nonce 3, 0 ..
SIV_NONCE = b"\3" + bytes(11)
SIV_CASES = (
    (16, b"", b"\1" + bytes(7), "b5d839330ac7b786" "578782fff6013b815b287c22493a364c"),
    (16, b"\1", b"\2" + bytes(7), "1e6daba35669f427" "3b0a1a2560969cdf790d99759abd1508"),
    (32, b"", b"\1" + bytes(7), "c2ef328e5c71c83b" "843122130f7364b761e0b97427e3df28"),
    (32, b"\1", b"\2" + bytes(7), "1de22967237a8132" "91213f267e3b452f02d01ae33e4ec854"),
)
for size, additional, plain, sealed in SIV_CASES:
    with GcmSiv(b"\1" + bytes(size - 1)) as siv:
        expect(siv.seal(SIV_NONCE, plain, additional).hex() == sealed, "RFC 8452, sealed")
        expect(siv.open(SIV_NONCE, bytes.fromhex(sealed), additional) == plain, "RFC 8452, opened")
    aead = AESGCMSIV(b"\1" + bytes(size - 1))
    expect(aead.encrypt(SIV_NONCE, plain, additional).hex() == sealed, "AESGCMSIV.encrypt")
    expect(aead.decrypt(SIV_NONCE, bytes.fromhex(sealed), additional) == plain, "AESGCMSIV.decrypt")
nonces = set()
with GcmSiv(KEY + KEY) as siv:
    for length in range(301):
        text = bytes(i % 251 for i in range(length))
        nonce, sealed = siv.seal_random(text, text[:length // 3])
        nonces.add(nonce)
        expect(siv.open(nonce, sealed, text[:length // 3]) == text, f"AES-GCM-SIV, {length} bytes")
        changed = bytearray(sealed)
        changed[length // 2] ^= 4
        expect(raises(Refused, siv.open, nonce, changed, text[:length // 3]), f"AES-GCM-SIV, {length} bytes, changed")
    expect(len(nonces) == 301, "random nonces differ")
    expect(raises(Refused, siv.open, nonce[:11], sealed) and raises(Refused, siv.open, nonce, sealed[-15:]), "what was cut")
    expect(raises(ValueError, siv.seal, bytes(13), PLAIN), "a nonce of 13 bytes")
expect(raises(ValueError, siv.seal_random, PLAIN) and raises(ValueError, siv.open, nonce, sealed), "a wiped key of SIV")
expect(all(raises(ValueError, GcmSiv, bytes(size)) for size in (0, 15, 17, 24, 31, 33)), "lengths of keys of SIV")

# Pieces under the counter's next nonce.
with Gcm(KEY, bytes(11) + b"\xff") as gcm:
    nonce, message = gcm.begin_next()
    expect(nonce == bytes(11) + b"\xff" and gcm.counter == bytes(10) + b"\x01\0", "begin_next counts on")
    with message:
        sealed = message.encrypt(PLAIN[:7]) + message.encrypt(PLAIN[7:])
        expect(gcm.open(nonce, sealed + message.finish()) == PLAIN, "begin_next seals under that nonce")
expect(raises(ValueError, Gcm(KEY, b"\xff" * 12).begin_next), "no nonce is left to begin")
expect(raises(ValueError, Gcm(KEY).begin_next), "no counter to begin")

# Text is decrypted before its tag is compared only by the call that says so.
with Gcm(KEY) as gcm:
    sealed, tag = bytes.fromhex(CASES[1][4])[:-16], bytes.fromhex(CASES[1][4])[-16:]
    with gcm.begin(NONCE) as message:
        message.additional(ADDITIONAL)
        expect(message.decrypt_unverified(sealed[:7]) + message.decrypt_unverified(sealed[7:]) == PLAIN, "unverified")
        expect(raises(Refused, message.accept, bytes(16)), "unverified, and refused")
        expect(raises(ValueError, message.decrypt_unverified, sealed), "unverified, after a refusal")
    with gcm.begin(NONCE) as message:
        message.additional(ADDITIONAL)
        message.verify(sealed)
        message.accept(tag)
        expect(raises(ValueError, message.decrypt, sealed + b"!"), "more than was verified")
        expect(message.decrypt(sealed) == PLAIN, "as much as was verified")
        expect(raises(ValueError, message.decrypt, b"!"), "more than was verified, in a second piece")
    expect(raises(ValueError, message.encrypt, b""), "the end of a with wipes a message")

# What has no bytes is refused, and not read as zeros, as bytes(16) and bytes([0] * 16) would be.
NOTHINGS = (16, 12, 0, -1, True, 1.5, [0] * 16, (0,) * 12, [256] * 12, range(12), "0123456789ab", object())
gcm, tag = Gcm(KEY, bytes(12)), bytes(16)
for thing in (None, *NOTHINGS):
    message = gcm.begin(NONCE)
    calls = [(Gcm, thing), (gcm.seal, thing, PLAIN), (gcm.seal, NONCE, thing), (gcm.seal_next, thing),
             (gcm.open, thing, PLAIN), (gcm.open, NONCE, thing), (gcm.begin, thing), (message.additional, thing),
             (message.encrypt, thing), (message.verify, thing), (message.accept, thing), (message.decrypt, thing),
             (message.decrypt_unverified, thing)]
    if thing is not None:
        calls += [(gcm.seal, NONCE, PLAIN, thing), (gcm.seal_next, PLAIN, thing), (gcm.open, NONCE, PLAIN, thing)]
    for call, *arguments in calls:
        expect(raises(TypeError, call, *arguments), f"{call} of {thing!r}")
for thing in NOTHINGS:
    expect(raises(TypeError, Gcm, KEY, thing), f"{thing!r} is no counter")
expect(gcm.counter == bytes(12), "a refused call moves no counter")
expect(gcm.open(NONCE, gcm.seal(NONCE, PLAIN, None), b"") == PLAIN, "no additional data is None or empty")

# Nothing shows a byte of a key: no object's text, nor that of what it consists of; no copy, and no error.
OPEN_KEY = b"lone-ox-16-bytes"
PARTS_OF_IT = "lone-ox", b"lone-ox".hex(), str([*b"lone-ox"])[1:-1]


def parts(thing):
    """An object, and what `vars` finds in it, to any depth."""
    yield thing
    for part in getattr(thing, "__dict__", {}).values():
        yield from parts(part)


def trace_of(call, *arguments):
    """What Python prints about the error that a call raises."""
    try:
        call(*arguments)
    except Exception:
        return traceback.format_exc()
    return f"no error, but {PARTS_OF_IT[0]}"


keys = Gcm(OPEN_KEY, bytes(12)), GcmSiv(OPEN_KEY), AESGCM(OPEN_KEY), AESGCMSIV(OPEN_KEY), Aes(OPEN_KEY)
for thing in (*keys, keys[0].begin(NONCE), keys[4].keystream(bytes(16))):
    expect(not any(it in f"{part!r} {part}" for part in parts(thing) for it in PARTS_OF_IT), f"the text of {thing}")
    secrets = [it for it in parts(thing) if it is thing or isinstance(it, ctypes.Structure)]
    expect(len(secrets) > 1, f"{thing} has a struct with its key")
    for part in secrets:
        for call in (copy.copy, copy.deepcopy, pickle.dumps):
            words = trace_of(call, part)
            expect("TypeError: cannot pickle or copy a key" in words, f"{call} of {part}: {words}")
for make in (Gcm, GcmSiv, AESGCM, AESGCMSIV, Aes):
    for wrong in (OPEN_KEY[:15], OPEN_KEY.decode(), [*OPEN_KEY], {OPEN_KEY: 1}):
        words = trace_of(make, wrong)
        expect(not any(it in words for it in PARTS_OF_IT), f"the error of {make}: {words}")
for key in (keys[0], keys[1], keys[4]):
    key.wipe()
words = trace_of(keys[0].seal, NONCE, PLAIN) + trace_of(keys[1].seal_random, PLAIN) + trace_of(keys[4].encrypt, bytes(16))
expect(not any(it in words for it in PARTS_OF_IT), f"the error of a wiped key: {words}")
for make, words in ((Gcm, "a key has 16, 24 or 32 bytes"), (GcmSiv, "a key of AES-GCM-SIV has 16 or 32 bytes")):
    expect(f"ValueError: {words}\n" in trace_of(make, bytes(17)), f"what the error of {make} says")

# Beside a text, a call needs twice its length at most: what it returns, and a buffer.
LONG = bytes(1 << 20)
siv, aead, aes = GcmSiv(KEY), AESGCM(KEY), Aes(KEY)
sealed, siv_sealed = gcm.seal(NONCE, LONG), siv.seal(NONCE, LONG)
for number, call in enumerate((
        lambda: siv.seal_random(LONG), lambda: gcm.seal(NONCE, LONG), lambda: gcm.open(NONCE, sealed),
        lambda: siv.open(NONCE, siv_sealed), lambda: gcm.begin(NONCE).encrypt(LONG), lambda: gcm.begin(NONCE).verify(LONG),
        lambda: aead.encrypt_into(NONCE, LONG, None, place), lambda: aead.decrypt(NONCE, sealed, None),
        lambda: gcm.seal(NONCE, memoryview(LONG)), lambda: aes.encrypt(LONG))):
    place = bytearray(len(LONG) + 16)
    tracemalloc.start()
    call()
    peak = tracemalloc.get_traced_memory()[1] / len(LONG)
    tracemalloc.stop()
    expect(peak < 2.1, f"call {number} needs {peak:.2f} times its text")

# All calls accept whatever has bytes.
words, text = array.array("I", range(9)), array.array("I", range(9)).tobytes()
expect(words.itemsize == 4 and gcm.seal(words[:3], words, words) == gcm.seal(text[:12], text, text), "arrays")
expect(gcm.open(words[:3], bytearray(gcm.seal(text[:12], text)), memoryview(b"")) == text, "a bytearray, a memoryview")
for thing in (ctypes.c_int(4), ctypes.c_ubyte(4), memoryview(b"4").cast("B", ()), (ctypes.c_void_p * 2)()):
    expect(raises(TypeError, gcm.seal, NONCE, thing), f"{thing!r} is a number or a pointer, and doesn't count as bytes")
expect(raises(BufferError, gcm.seal, NONCE, memoryview(PLAIN)[::2]), "a view with gaps")
try:
    import numpy
except ImportError:
    print("skipped: what numpy has for bytes (numpy is not installed)")
else:
    for thing in (numpy.uint8(4), numpy.array(4, "u1"), numpy.datetime64("2026-11-26"), numpy.array([object()]),
                  numpy.array(["2026-11-26"], "M8[D]"), numpy.zeros(2, [("a", "u1")])):
        expect(raises(TypeError, gcm.seal, NONCE, thing), f"{thing!r} of numpy doesn't count as bytes")
    for thing in (numpy.arange(9, dtype="u4"), numpy.zeros((2, 3), "u1"), numpy.zeros(0, "u4")):
        expect(gcm.seal(NONCE, thing) == gcm.seal(NONCE, thing.tobytes()), f"{thing!r} of numpy")
    expect(raises(BufferError, gcm.seal, NONCE, numpy.zeros((2, 3), "u1", order="F")), "an array with gaps")

# A library of another name, and one that is none.
for name in ("libc.so.6", "libm.so.6", os.devnull):
    ended = subprocess.run([sys.executable, "-c", "import fotsgure.gcm"], stderr=subprocess.PIPE, text=True,
                           env={**os.environ, "FOTSGURE_GCM": name})
    expect(ended.stderr.splitlines()[-1].startswith("ImportError: "), f"FOTSGURE_GCM={name}: {ended.stderr}")

# A counter and a message are of one process: a child that was forked may not go on with them. It doesn't wait for locks that another thread
# held when it was forked, and what belongs to no process works.
busy, done, message = threading.Event(), threading.Event(), gcm.begin(NONCE)


def hold_locks():
    with gcm._turn, gcm._uses, gcm._uses._change, message._turn:
        busy.set()
        done.wait()


thread = threading.Thread(target=hold_locks)
thread.start()
busy.wait()
child = os.fork()
if child == 0:
    signal.alarm(20)
    refused = [raises(ValueError, call, *arguments) for call, *arguments in (
        (gcm.seal_next, PLAIN), (gcm.begin_next,), (getattr, gcm, "counter"), (message.encrypt, PLAIN), (message.finish,))]
    sealed = gcm.seal(NONCE, PLAIN)
    message.wipe()
    gcm.wipe()
    os._exit(0 if all(refused) and sealed and raises(ValueError, gcm.seal, NONCE, PLAIN) else 1)
expect(os.waitpid(child, 0)[1] == 0, "a forked child has no counter and no message, and seals under a nonce of its own")
done.set()
thread.join()
expect(gcm.seal_next(PLAIN)[0] == bytes(12) and gcm.counter == bytes(11) + b"\1", "the parent continues")
expect(len(message.encrypt(PLAIN)) == len(PLAIN), "the parent's message continues")

# One message in four threads: no two of its pieces have the same keystream.
sys.setswitchinterval(1e-5)
for number in range(20):
    message, start, pieces = gcm.begin(number.to_bytes(12, "big")), threading.Barrier(4), []


    def encrypt_piece():
        start.wait()
        pieces.append(message.encrypt(bytes(1 << 18)))


    threads = [threading.Thread(target=encrypt_piece) for _ in range(4)]
    for thread in threads:
        thread.start()
    for thread in threads:
        thread.join()
    expect(len({piece[:16] for piece in pieces}) == 4, "one message in four threads")

# A key that is wiped while another thread seals: what was sealed is under the key, and not under zeros.
for _ in range(10):
    wiped, sealed, first = Gcm(KEY, bytes(12)), [], threading.Event()


    def seal_on():
        try:
            while True:
                sealed.append(wiped.seal_next(bytes(1 << 17)))
                first.set()
        except ValueError:
            pass


    thread = threading.Thread(target=seal_on)
    thread.start()
    first.wait()
    wiped.wipe()
    thread.join()
    expect(not raises(Refused, gcm.open, *sealed[-1]), "sealed while another thread wipes")

# AESGCM of the package cryptography, version 48: its names, its errors, its order of arguments.
for key, nonce, additional, plain, sealed in CASES:
    aead = AESGCM(key)
    expect(aead.encrypt(nonce, plain, additional).hex() == sealed, "AESGCM.encrypt")
    expect(aead.decrypt(nonce, bytes.fromhex(sealed), additional) == plain, "AESGCM.decrypt")
    for other in (b"", bytes(15), bytes.fromhex(sealed)[:-1], bytes.fromhex(sealed) + b"\0"):
        expect(raises(InvalidTag, aead.decrypt, nonce, other, additional), f"{len(other)} bytes are refused")
expect(raises(ValueError, AESGCMSIV, bytes(24)) and raises(ValueError, AESGCMSIV.generate_key, 192), "no keys of 24 bytes")
aead = AESGCM(KEY)
expect(aead.decrypt(NONCE, aead.encrypt(NONCE, PLAIN, None), b"") == PLAIN, "no associated data is None or empty")
expect([len(AESGCM.generate_key(bits)) for bits in (128, 192, 256)] == [16, 24, 32], "lengths of new keys")
expect(AESGCM.generate_key(256) != AESGCM.generate_key(256), "new keys")
expect(raises(TypeError, AESGCM.generate_key, "128") and raises(ValueError, AESGCM.generate_key, 129), "other lengths")
expect(all(raises(ValueError, aead.encrypt, bytes(length), PLAIN, None) for length in (0, 7, 129)), "lengths of nonces")
expect(raises(ValueError, AESGCM, bytes(31)), "a key of 31 bytes")
for thing in NOTHINGS:
    expect(raises(TypeError, AESGCM, thing), f"AESGCM of {thing!r}")
    for call in (aead.encrypt, aead.decrypt):
        expect(raises(TypeError, call, thing, PLAIN, None), f"{call} under {thing!r}")
        expect(raises(TypeError, call, NONCE, thing, None), f"{call} of {thing!r}")
        expect(raises(TypeError, call, NONCE, PLAIN, thing), f"{call} with {thing!r}")
SEALED, GAPS = aead.encrypt(NONCE, b"0123456789", None), memoryview(bytearray(52))[::2]


def into(call, data, place):
    """What a call returned, and what it wrote."""
    return call(NONCE, data, None, place), bytes(place)


# Calls of a class, and what they come to: recorded of cryptography 48.0.0, which is asked here if it is installed. The words of a
# ValueError and a BufferError are its own too; those of a TypeError name its types.
WRONG_NONCE = ValueError, "Nonce must be between 8 and 128 bytes"
WRONG_BITS = ValueError, "bit_length must be 128, 192, or 256"
WRONG_KEY = ValueError, "AESGCM key must be 128, 192, or 256 bits."
ROWS = (
    (lambda aes: into(aes.encrypt_into, b"0123456789", bytearray(26)), (26, SEALED)),
    (lambda aes: into(aes.encrypt_into, b"0123456789", memoryview(bytearray(26)).cast("B", (2, 13))), (26, SEALED)),
    (lambda aes: into(aes.encrypt_into, b"0123456789", bytearray(25)), (ValueError, "buffer must be 26 bytes")),
    (lambda aes: into(aes.encrypt_into, b"0123456789", bytearray(27)), (ValueError, "buffer must be 26 bytes")),
    (lambda aes: into(aes.encrypt_into, b"0123456789", bytes(26)), TypeError),
    (lambda aes: into(aes.encrypt_into, b"0123456789", memoryview(bytes(26))), TypeError),
    (lambda aes: into(aes.encrypt_into, b"0123456789", GAPS), (BufferError, "Buffer is not contiguous.")),
    (lambda aes: into(aes.encrypt_into, b"0123456789", None), TypeError),
    (lambda aes: into(aes.decrypt_into, SEALED, bytearray(10)), (10, b"0123456789")),
    (lambda aes: into(aes.decrypt_into, SEALED[-16:], bytearray()), InvalidTag),
    (lambda aes: into(aes.decrypt_into, SEALED, bytearray(9)), (ValueError, "buffer must be 10 bytes")),
    (lambda aes: into(aes.decrypt_into, SEALED, bytearray(26)), (ValueError, "buffer must be 10 bytes")),
    (lambda aes: into(aes.decrypt_into, SEALED[:15], bytearray(9)), InvalidTag),
    (lambda aes: into(aes.decrypt_into, SEALED[:15], bytes(9)), TypeError),
    (lambda aes: into(aes.decrypt_into, SEALED[:-1] + b"!", bytearray(10)), InvalidTag),
    (lambda aes: aes.encrypt_into(nonce=bytes(7), data=b"", associated_data=None, buf=bytearray()), WRONG_NONCE),
    (lambda aes: aes.decrypt_into(nonce=bytes(7), data=b"", associated_data=None, buf=bytearray()), WRONG_NONCE),
    (lambda aes: aes.encrypt(NONCE, GAPS, None), (BufferError, "Buffer is not contiguous.")),
    (lambda aes: aes.encrypt(NONCE, b"", GAPS), (BufferError, "Buffer is not contiguous.")),
    (lambda aes: aes.encrypt(NONCE, b""), TypeError),
    (lambda aes: type(aes).generate_key(128.0), TypeError),
    (lambda aes: type(aes).generate_key(129), WRONG_BITS),
    (lambda aes: type(aes)(bytes(31)), WRONG_KEY),
    (lambda aes: len(type(aes).generate_key(bit_length=192)), 24),
    (copy.copy, TypeError),
    (copy.deepcopy, TypeError),
    (pickle.dumps, TypeError),
)


def outcome(call, aes):
    try:
        return call(aes)
    except (ValueError, BufferError) as error:
        return type(error), str(error)
    except Exception as error:
        return type(error)


classes = [AESGCM]
try:
    import cryptography
    if cryptography.__version__.startswith("48."):
        from cryptography.hazmat.primitives.ciphers.aead import AESGCM as Other
        classes.append(Other)
except ImportError:
    pass
if len(classes) == 1:
    print("skipped: the package cryptography beside AESGCM (version 48 is not installed)")
for number, (call, wanted) in enumerate(ROWS):
    for each in classes:
        expect(outcome(call, each(KEY)) == wanted, f"row {number} of {each}: {outcome(call, each(KEY))} and not {wanted}")
# AES-GCM-SIV has nonces of 12 bytes, and by RFC 8452 no keys of 24.
OF_SIV = {(26, SEALED): (26, AESGCMSIV(KEY).encrypt(NONCE, b"0123456789", None)),
          WRONG_NONCE: (ValueError, "Nonce must be 12 bytes long"), WRONG_BITS: (ValueError, "bit_length must be 128 or 256"),
          WRONG_KEY: (ValueError, "AES-GCM-SIV key must be 128 or 256 bits.")}
SEALED = AESGCMSIV(KEY).encrypt(NONCE, b"0123456789", None)
for number, (call, wanted) in enumerate(ROWS):
    wanted = OF_SIV.get(wanted, wanted)
    if wanted != 24:
        expect(outcome(call, AESGCMSIV(KEY)) == wanted, f"row {number} of AESGCMSIV: {outcome(call, AESGCMSIV(KEY))}")
expect("TypeError: the buffer is not writable" in trace_of(aead.encrypt_into, NONCE, b"", None, bytes(16)), "a buffer that is read-only")
place = bytearray(10)
expect(raises(InvalidTag, aead.decrypt_into, NONCE, SEALED[:-1] + b"!", None, place) and place == bytes(10),
       "a refused message leaves the buffer as it was")
print(f"{sum(checks)} passed, {len(checks) - sum(checks)} failed")
sys.exit(not all(checks))
