"""Evaluates the statements at the standards' vectors, without any machine. So the definitions in the statements and in standards.py agree
with the standards."""
import random

from statements.cell_values import Values
from statements.standards import Aes, product
from symbols.bits import Unproved
from symbols.domain import Domain

# SP 800-38A, F.2 and F.5: the key, CBC's and counter mode's blocks.
A_PLAIN = ("6bc1bee22e409f96e93d7e117393172aae2d8a571e03ac9c9eb76fac45af8e51"
           "30c81c46a35ce411e5fbc1191a0a52eff69f2445df4f9b17ad2b417be66c3710")
A_KEYS = {16: "2b7e151628aed2a6abf7158809cf4f3c", 24: "8e73b0f7da0e6452c810f32b809079e562f8ead2522c6b7b",
          32: "603deb1015ca71be2b73aef0857d77811f352c073b6108d72d9810a30914dff4"}
A_COUNTER = {16: "874d6191b620e3261bef6864990db6ce9806f66b7970fdff8617187bb9fffdff"
                 "5ae4df3edbd5d35e5b4f09020db03eab1e031dda2fbe03d1792170a0f3009cee",
             24: "1abc932417521ca24f2b0459fe7e6e0b090339ec0aa6faefd5ccc2c6f4ce8e94"
                 "1e36b26bd1ebc670d1bd1d665620abf74f78a7f6d29809585a97daec58c6b050",
             32: "601ec313775789a5b7a7f504bbf3d228f443e3ca4d62b59aca84e990cacaf5c5"
                 "2b0930daa23de94ce87017ba2d84988ddfc9c58db67aada613c2dd08457941a6"}
A_CBC = {16: "7649abac8119b246cee98e9b12e9197d5086cb9b507219ee95db113a917678b2"
             "73bed6b8e3c1743b7116e69e222295163ff1caa1681fac09120eca307586e1a7",
         24: "4f021db243bc633d7178183a9fa071e8b4d9ada9ad7dedf4e5e738763f69145a"
             "571b242012fb7ae07fa9baac3df102e008b0e27988598881d920a9e64f5615cd",
         32: "f58c4c04d6e5f1ba779eabfb5f7bfbd69cfc4e967edb808d679f777bc6702c7d"
             "39f23369a9d9bacfa530e26304231461b2eb05e2c39be9fcda6c19078c6a9d1b"}
# SP 800-38B, D.1 to D.3: the same keys, and tags of the same text at these lengths.
CMAC_LENGTHS = 0, 16, 40, 64
CMAC = {16: ("bb1d6929e95937287fa37d129b756746", "070a16b46b4d4144f79bdd9dd04a287c",
             "dfa66747de9ae63030ca32611497c827", "51f0bebf7e3b9d92fc49741779363cfe"),
        24: ("d17ddf46adaacde531cac483de7a9367", "9e99a7bf31e710900662f65e617c5184",
             "8a1de5be2eb31aad089a82e6ee908b0e", "a1d5df0eed790f794d77589659f39a11"),
        32: ("028962f61b7bf89efc6b551f4667d983", "28a7023f452e8f82bd4bf28d8c37c35c",
             "aaf3d8f1de5640c232f5b169b9c911e6", "e1992190549f6ed5696a2c056c315410")}
# SP 800-38C, C.1 to C.3. The key is 40 41 .. 4f. The nonce counts from 10 on, the additional data from 00 on, and the text from 20 on. An
# entry has the lengths of these three, the encrypted text, and the tag.
CCM = [(7, 8, 4, "7162015b", "4dac255d"), (8, 16, 16, "d2a1f0e051ea5f62081a7792073d593d", "1fc64fbfaccd"),
       (12, 20, 24, "e3b201a9f5b71a7a9b1ceaeccd97e70b6176aad9a4428aa5", "484392fbc1b09951")]
# FIPS 197 of 2001, C.1: round 1 of Cipher and of EqInvCipher: the state, the round key, the next state; MixColumns of round 1.
ROUNDS = {"cipher_round": ("00102030405060708090a0b0c0d0e0f0", "d6aa74fdd2af72fadaa678f1d6ab76fe", "89d810e8855ace682d1843d8cb128fe4"),
          "equiv_inv_cipher_round": ("7ad5fda789ef4e272bca100b3d9ff59f", "13aa29be9c8faff6f770f58000f7bf03",
                                     "54d990a16ba09ab596bbf40ea111702f")}
COLUMNS, MIXED = "6353e08c0960e104cd70b751bacad0e7", "5f72641557f5bc92f7be3b291db9f91a"
# RFC 3394, 4.1, 4.2 and 4.3: keys 00 01 .. and 16 bytes; RFC 5649, 6, and CAVP's KWP: (key, data, wrapped).
KW_DATA = "00112233445566778899aabbccddeeff"
KW = {16: "1fa68b0a8112b447aef34bd8fb5a7b829d3e862371d2cfe5", 24: "96778b25ae6ca435f92b5b97c050aed2468ab8a17ad84e5d",
      32: "64e8c3f9ce0f5ba263e9777905818a2a93c8191e7d6e8ae7"}
KWP = [("5840df6e29b02af1ab493b705bf16ea1ae8338f4dcc176a8", "c37b7e6492584340bed12207808941155068f738",
        "138bdeaa9b8fa7fc61f97742e72248ee5ae6ae5360d1ae6a5f54f373fa543b6a"),
       ("5840df6e29b02af1ab493b705bf16ea1ae8338f4dcc176a8", "466f7250617369", "afbeb0f07dfbf5419200f2ccb50bb24f"),
       ("95da2700ca6fd9a52554ee2a8df1386f5b94a1a60ed8a4aef60a8d61ab5f225a", "d1", "06ba7ae6f3248cfdcf267507fa001bc4")]
# The submission of GCM (McGrew and Viega), appendix B, test cases 4 and 16, and 6 and 18 with nonces of 60 bytes.
G_KEY, G_NONCE = "feffe9928665731c6d6a8f9467308308", "cafebabefacedbaddecaf888"
G_MORE = "feedfacedeadbeeffeedfacedeadbeefabaddad2"
G_PLAIN = "d9313225f88406e5a55909c5aff5269a86a7a9531534f7da2e4c303d8a318a721c3c0c95956809532fcf0e2449a6b525b16aedf5aa0de657ba637b39"
G_LONG = "9313225df88406e555909c5aff5269aa6a7a9538534f7da1e4c303d2a318a728c3c0c95156809539fcf0e2429a6b525416aedbf5a0de6a57a637b39b"
GCM = [(G_KEY, G_NONCE, "42831ec2217774244b7221b784d0d49ce3aa212f2c02a4e035c17e2329aca12e21d514b25466931c7d8f6a5"
        "aac84aa051ba30b396a0aac973d58e091", "5bc94fbc3221a5db94fae95ae7121a47"),
       (G_KEY * 2, G_NONCE, "522dc1f099567d07f47f37a32a84427d643a8cdcbfe5c0c97598a2bd2555d1aa8cb08e48590dbb3da7b"
        "08b1056828838c5f61e6393ba7a0abcc9f662", "76fc6ece0f4e1768cddf8853bb2d551b"),
       (G_KEY, G_LONG, "8ce24998625615b603a033aca13fb894be9112a5c3a211a8ba262a3cca7e2ca701e4a9a4fba43c90ccdcb281"
        "d48c7c6fd62875d2aca417034c34aee5", "619cc5aefffe0bfa462af43c1699d050")]

# RFC 8452, appendices C.1, C.2 and C.3 (where the counter wraps): key, nonce, additional data, text, encrypted, tag.
SIV = [("f901cfe8a69615a93fdf7a98cad48179", "6245709fb18853f68d833640",
        "7576f7028ec6eb5ea7e298342a94d4b202b370ef9768ec6561c4fe6b7e7296fa859c21",
        "e42a3c02c25b64869e146d7b233987bddfc240871d", "391cc328d484a4f46406181bcd62efd9b3ee197d05", "2d15506c84a9edd65e13e9d24a2a6e70"),
       ("3c535de192eaed3822a2fbbe2ca9dfc88255e14a661b8aa82cc54236093bbc23", "688089e55540db1872504e1c",
        "734320ccc9d9bbbb19cb81b2af4ecbc3e72834321f7aa0f70b7282b4f33df23f167541", "ced532ce4159b035277d4dfbb7db62968b13cd4eec",
        "626660c26ea6612fb17ad91e8e767639edd6c9faee", "9d6c7029675b89eaf4ba1ded1a286594"),
       ("00" * 32, "00" * 12, "", "000000000000000000000000000000004db923dc793ee6497c76dcc03a98e108",
        "f3f80f2cf0cb2dd9c5984fcda908456cc537703b5ba70324a6793a7bf218d3ea", "ffffffff000000000000000000000000")]


def evaluate(keyed, call, key, given):
    """Gives what buffers hold after a call with this key and these contents, as its statement says: {name: bytes}. First the cells of round
    keys, of powers of H and of the contents get their values. Then functions of these are computed. If the statement has steps, the
    arbitrary bytes after a step get the values of what they replace."""
    plain, values = Aes(Domain()), Values(keyed.domain, random.Random(1), call.counter)
    words = plain.key_expansion(list(key))
    known = list(zip(words, keyed.round_key_words))
    if keyed.library == "gcm":
        power = h = plain.cipher([0] * 16, words)
        for cells in keyed.powers:
            known.append((power, cells))
            power = product(plain.d, power, h)
    for value, cells in known:
        for x, b in zip(value, cells):
            values.set_byte(b, x)
    for buffer in call.buffers:
        for x, b in zip(given.get(buffer.name, ()), buffer.content):
            values.give(b, x)
    for _, want, new in call.steps() if call.steps else ():
        want = want() if callable(want) else want
        values.rename(zip(want, new), keyed.domain)
        if any(c < 256 and values.full_byte(b) != c for b, c in zip(want, new)):
            raise Unproved("a vector isn't what a statement assumes")
    return {b.name: bytes(map(values.full_byte, b.after)) for b in call.buffers if b.after is not None and None not in b.after}


# These functions give vectors: a call, a key, what the buffers hold before the call, and what they have to hold after it.
def aes_vectors(k):
    size = k.key_size
    cipher = A_CBC[k.key_size]
    number = "f0f1f2f3f4f5f6f7f8f9fafbfcfdfeff"
    key = A_KEYS[size]
    iv = "000102030405060708090a0b0c0d0e0f"
    last = {"cbc": A_CBC[size][-32:]}
    yield k.add_keystream(0, 64), key, {"ctr": number, "bytes": A_PLAIN}, {"bytes": A_COUNTER[size]}
    yield k.add_keystream(16, 48, 1 << 60), key, {"ctr": number, "bytes": A_PLAIN[32:]}, {"bytes": A_COUNTER[size][32:]}
    yield k.cbc_encrypt(4), key, {"cbc": iv, "blocks": A_PLAIN}, dict(last, blocks=cipher)
    yield k.cbc_decrypt(4), key, {"cbc": iv, "blocks": cipher}, dict(last, blocks=A_PLAIN)
    key = bytes(range(size)).hex()
    yield k.wrap(2), key, {"input": KW_DATA}, {"output": KW[size]}
    yield k.unwrap(3), key, {"input": KW[size]}, {"output": KW_DATA}
    for key, data, wrapped in KWP:
        if len(key) == 2 * size:
            n = len(data) // 2
            padded = data + "00" * (-n % 8)
            yield k.wrap_padded(n), key, {"input": data}, {"output": wrapped}
            unwrapped = {"output": padded, "key_length": n.to_bytes(8, "little").hex()}
            yield k.unwrap_padded(n), key, {"input": wrapped}, unwrapped
    yield from mode_vectors(k)
    yield from round_vectors(k)


def mode_vectors(k):
    for n, tag in zip(CMAC_LENGTHS, CMAC[k.key_size]):
        yield k.cmac(n), A_KEYS[k.key_size], {"message": A_PLAIN[:2 * n]}, {"tag": tag}
    for nonce, more, n, cipher, tag in CCM if k.key_size == 16 else ():
        key = counted(0x40, 16)
        lengths = nonce, more, n, len(tag) // 2
        text = counted(0x20, n)
        given = {"nonce": counted(0x10, nonce), "additional": counted(0, more)}
        yield k.ccm_seal(*lengths), key, dict(given, text=text), {"text": cipher, "tag": tag}
        yield k.ccm_open(*lengths), key, dict(given, text=cipher, tag=tag), {"text": text}


def round_vectors(k):
    for way, count in ("", 1), ("_par", 8):
        for name, (block, round_key, after) in ROUNDS.items():
            given = {"blocks": block * count, "round keys": round_key * count}
            yield k.a_round(name, way), A_KEYS[k.key_size], given, {"blocks": after * count}
    yield k.columns("mix_columns"), A_KEYS[k.key_size], {"blocks": COLUMNS}, {"blocks": MIXED}
    yield k.columns("inv_mix_columns"), A_KEYS[k.key_size], {"blocks": MIXED}, {"blocks": COLUMNS}


def counted(first, count):
    """Gives `count` bytes that count up from the first one, in hexadecimal."""
    return bytes(range(first, first + count)).hex()


def gcm_vectors(k):
    for key, nonce, cipher, tag in GCM:
        if len(key) == 2 * k.key_size:
            nonce_length = (len(nonce) // 2,)
            given = {"nonce": nonce, "additional": G_MORE}
            yield k.seal(20, 60, nonce_length), key, dict(given, text=G_PLAIN), {"text": cipher, "tag": tag}
            if len(nonce) == 24:
                yield k.open(20, 60, nonce_length), key, dict(given, text=cipher, tag=tag), {"text": G_PLAIN}
                yield k.seal(20, 60, nonce_length, "_to"), key, dict(given, input=G_PLAIN), {"output": cipher, "tag": tag}
                yield k.open(20, 60, nonce_length, "_to"), key, dict(given, input=cipher, tag=tag), {"output": G_PLAIN}


def siv_vectors(k):
    for key, nonce, more, plain, cipher, tag in SIV:
        if len(key) == 2 * k.key_size:
            a = len(more) // 2
            n = len(plain) // 2
            given = {"nonce": nonce, "additional": more}
            yield k.seal(a, n), key, dict(given, text=plain), {"text": cipher, "tag": tag}
            yield k.open(a, n), key, dict(given, text=cipher, tag=tag), {"text": plain}
            yield k.seal(a, n, "_to"), key, dict(given, input=plain), {"output": cipher, "tag": tag}
            yield k.open(a, n, "_to"), key, dict(given, input=cipher, tag=tag), {"output": plain}


def check_vectors(keyed):
    """Compares the statements with their vectors, and gives how many these are. Raises if a statement has another result."""
    vectors = list({"aes": aes_vectors, "gcm": gcm_vectors, "siv": siv_vectors}[keyed.library](keyed))
    for call, key, given, want in vectors:
        have = evaluate(keyed, call, bytes.fromhex(key), {name: bytes.fromhex(x) for name, x in given.items()})
        for name, x in want.items():
            if have[name].hex() != x:
                raise Unproved("%s: a vector of the standard has another %s: %s and not %s" % (call.name, name, have[name].hex(), x))
    return len(vectors)
