// Known answers, what must be refused, and what memories have: `check(fotsgure, node)` returns how many passed, and the names of those that
// failed. In node it also compares with node's own crypto, which is `node`. Import this file before the package, whose memories it finds.

const instances = [];
WebAssembly.Instance = class extends WebAssembly.Instance {
  constructor(...words) {
    super(...words);
    instances.push(new WeakRef(this.exports.memory));
  }
};

/** The memories of all instances that aren't garbage: those of Aes, AesGcm and AesGcmSiv first. */
export const memories = () => instances.map((it) => it.deref()).filter((it) => it);

/** Whether one of them has these bytes. */
export const holds = (wanted) => memories().some(({ buffer }) => {
  const all = new Uint8Array(buffer);
  let at = all.indexOf(wanted[0]);
  while (at >= 0 && !wanted.every((byte, i) => all[at + i] === byte)) at = all.indexOf(wanted[0], at + 1);
  return at >= 0;
});

const bytes = (digits) => Uint8Array.from((digits.match(/../g) ?? []).map((it) => parseInt(it, 16)));
const digits = (it) => [...it].map((byte) => byte.toString(16).padStart(2, "0")).join("");
const zeros = (count) => "00".repeat(count);
const COUNTED = Uint8Array.from({ length: 32 }, (_, i) => i);

// FIPS 197, C.1 to C.3: the key counts from 00 on.
const PLAIN = "00112233445566778899aabbccddeeff";
const CIPHERS = [[16, "69c4e0d86a7b0430d8cdb78070b4c55a"], [24, "dda97ca4864cdfe06eaf70a0ec0d7191"], [32, "8ea2b7ca516745bfeafc49904b496089"]];

// McGrew and Viega's test cases of GCM: 1, 2, 3, 4, 5, 6, 13, 14 and 16 (the 16th with the first half of its key twice).
const KEY = "feffe9928665731c6d6a8f9467308308", NONCE = "cafebabefacedbaddecaf888";
const TEXT = "d9313225f88406e5a55909c5aff5269a86a7a9531534f7da2e4c303d8a318a721c3c0c95956809532fcf0e2449a6b525b16aedf5aa0de657ba637b391aafd255";
const DATA = "feedfacedeadbeeffeedfacedeadbeefabaddad2", SHORT = TEXT.slice(0, 120);
const LONG_NONCE = "9313225df88406e555909c5aff5269aa6a7a9538534f7da1e4c303d2a318a728c3c0c95156809539fcf0e2429a6b525416aedbf5a0de6a57a637b39b";
const GCM = [
  [zeros(16), zeros(12), "", "", "58e2fccefa7e3061367f1d57a4e7455a"],
  [zeros(16), zeros(12), zeros(16), "", "0388dace60b6a392f328c2b971b2fe78ab6e47d42cec13bdf53a67b21257bddf"],
  [KEY, NONCE, TEXT, "", "42831ec2217774244b7221b784d0d49ce3aa212f2c02a4e035c17e2329aca12e21d514b25466931c7d8f6a5aac84aa051ba30b396a0aac973d58e091473f59854d5c2af327cd64a62cf35abd2ba6fab4"],
  [KEY, NONCE, SHORT, DATA, "42831ec2217774244b7221b784d0d49ce3aa212f2c02a4e035c17e2329aca12e21d514b25466931c7d8f6a5aac84aa051ba30b396a0aac973d58e0915bc94fbc3221a5db94fae95ae7121a47"],
  [KEY, NONCE.slice(0, 16), SHORT, DATA, "61353b4c2806934a777ff51fa22a4755699b2a714fcdc6f83766e5f97b6c742373806900e49f24b22b097544d4896b424989b5e1ebac0f07c23f45983612d2e79e3b0785561be14aaca2fccb"],
  [KEY, LONG_NONCE, SHORT, DATA, "8ce24998625615b603a033aca13fb894be9112a5c3a211a8ba262a3cca7e2ca701e4a9a4fba43c90ccdcb281d48c7c6fd62875d2aca417034c34aee5619cc5aefffe0bfa462af43c1699d050"],
  [zeros(32), zeros(12), "", "", "530f8afbc74536b9a963b4f1c4cb738b"],
  [zeros(32), zeros(12), zeros(16), "", "cea7403d4d606b6e074ec5d3baf39d18d0d1c8a799996bf0265b98b5d48ab919"],
  [KEY + KEY, NONCE, SHORT, DATA, "522dc1f099567d07f47f37a32a84427d643a8cdcbfe5c0c97598a2bd2555d1aa8cb08e48590dbb3da7b08b1056828838c5f61e6393ba7a0abcc9f66276fc6ece0f4e1768cddf8853bb2d551b"],
];

// RFC 8452, C.1 and C.2.
const KEY_16 = `01${zeros(15)}`, KEY_32 = `01${zeros(31)}`, NONCE_3 = `03${zeros(11)}`;
const SIV = [
  [KEY_16, NONCE_3, "", "", "dc20e2d83f25705bb49e439eca56de25"],
  [KEY_16, NONCE_3, `01${zeros(7)}`, "", "b5d839330ac7b786578782fff6013b815b287c22493a364c"],
  [KEY_16, NONCE_3, `01${zeros(15)}`, "", "743f7c8077ab25f8624e2e948579cf77303aaf90f6fe21199c6068577437a0c4"],
  [KEY_16, NONCE_3, `02${zeros(7)}`, "01", "1e6daba35669f4273b0a1a2560969cdf790d99759abd1508"],
  [KEY_32, NONCE_3, "", "", "07f5f4169bbf55a8400cd47ea6fd400f"],
  [KEY_32, NONCE_3, `01${zeros(7)}`, "", "c2ef328e5c71c83b843122130f7364b761e0b97427e3df28"],
  [KEY_32, NONCE_3, `01${zeros(15)}`, "", "85a01b63025ba19b7fd3ddfc033b3e76c9eac6fa700942702e90862383c6c366"],
];

class Results {
  passed = 0;
  failed = [];

  expect(what, holds) {
    holds ? this.passed++ : this.failed.push(what);
  }

  expectThrown(what, body, is) {
    try {
      body();
      this.expect(what, false);
    } catch (thrown) {
      this.expect(what, is(thrown));
    }
  }
}

function blocks(results, { Aes }) {
  for (const [size, cipher] of CIPHERS) {
    const aes = new Aes(COUNTED.subarray(0, size));
    for (const count of [0, 1, 2, 3, 7, 8, 9, 15, 16, 17, 31, 32, 33, 64, 5000]) {
      const made = aes.encryptBlocks(bytes(PLAIN.repeat(count)));
      results.expect(`FIPS 197, ${size}, ${count}`, digits(made) === cipher.repeat(count) && digits(aes.decryptBlocks(made)) === PLAIN.repeat(count));
    }
    aes.wipe();
    results.expectThrown("a wiped key", () => aes.encryptBlocks(bytes(PLAIN)), (it) => it.message.includes("wiped"));
  }
}

function sealed(results, { FotsgureError }, Kind, cases) {
  for (const [key, nonce, text, data, wanted] of cases) {
    const it = new Kind(bytes(key)), made = it.seal(bytes(nonce), bytes(text), bytes(data));
    results.expect(`${Kind.name} ${wanted}`, digits(made) === wanted && digits(it.open(bytes(nonce), made, bytes(data))) === text);
    const refused = (message, more = "", number = bytes(nonce)) => results.expectThrown(`${Kind.name} refuses`,
      () => it.open(number, message, bytes(data + more)), (thrown) => thrown instanceof FotsgureError && thrown.status === 6);
    for (const at of [0, made.length - 1, made.length - 16]) refused(made.map((byte, i) => byte ^ (i === at ? 1 : 0)));
    refused(made.subarray(1));
    refused(made, "00");
    refused(new Uint8Array(15));
    for (const size of [0, nonce.length / 2 - 1, 13]) refused(made, "", new Uint8Array(size));
    it.wipe();
  }
}

function arguments_(results, { Aes, AesGcm, AesGcmSiv, FotsgureError }) {
  const status = (number) => (it) => it instanceof FotsgureError && it.status === number;
  for (const Kind of [Aes, AesGcm, AesGcmSiv])
    for (const size of [0, 15, 17, 33, 64]) results.expectThrown("the length of a key", () => new Kind(new Uint8Array(size)), status(1));
  const namesLengths = (it) => status(1)(it) && it.message === "a key of AesGcmSiv has 16 or 32 bytes";
  results.expectThrown("24 bytes", () => new AesGcmSiv(new Uint8Array(24)), namesLengths);
  results.expectThrown("a nonce of 32 bytes", () => new AesGcmSiv(COUNTED).seal(COUNTED, COUNTED), (it) => it instanceof RangeError);
  results.expectThrown("an empty nonce", () => new AesGcm(COUNTED).seal(new Uint8Array(), COUNTED), status(3));
  for (const call of ["seal", "open"])
    results.expectThrown("a string", () => new AesGcm(COUNTED)[call]("nonce", COUNTED), (it) => it instanceof TypeError);
  results.expectThrown("17 bytes", () => new Aes(COUNTED).encryptBlocks(new Uint8Array(17)), (it) => it instanceof RangeError);
}

// The names that a key has, also in its classes.
const names = (it) => (it === Object.prototype ? [] : [...Reflect.ownKeys(it), ...names(Object.getPrototypeOf(it))]);

/** Nothing that can be reached from a key leads to its bytes: it has no property, and its classes have these calls alone. */
function secrecy(results, { Aes, AesGcm, AesGcmSiv }) {
  const calls = ["wipe", "toJSON", "constructor", "encryptBlocks", "decryptBlocks", "seal", "open"];
  for (const Kind of [Aes, AesGcm, AesGcmSiv]) {
    const key = new Kind(COUNTED);
    results.expect(`names of ${Kind.name}`, names(key).every((it) => typeof it === "symbol" || calls.includes(it)) && !Reflect.ownKeys(key).length);
    results.expect(`JSON of ${Kind.name}`, JSON.stringify({ context: { key } }) === '{"context":{"key":{}}}');
    results.expect(`a clone of ${Kind.name}`, !Reflect.ownKeys(structuredClone(key)).length && !Reflect.ownKeys({ ...key }).length);
  }
  const derived = new (class extends AesGcm {
    bytes = COUNTED;
  })(COUNTED);
  results.expect("JSON of a derived class", JSON.stringify(derived) === "{}");
}

function memory(results, { Aes, AesGcm, AesGcmSiv }) {
  const nonce = COUNTED.subarray(0, 12), keys = Array.from({ length: 200 }, (_, i) => new AesGcm(COUNTED.map((byte) => byte + i)));
  const made = keys.map((it) => digits(it.seal(nonce, COUNTED)));
  results.expect("200 keys", new Set(made).size === 200 && keys.every((it, i) => digits(it.seal(nonce, COUNTED)) === made[i]));

  const sizes = () => memories().slice(0, 3).map((it) => it.buffer.byteLength).join(), before = sizes();
  const secret = COUNTED.map((byte) => 251 - 7 * byte), text = new Uint8Array(3e6 + 16).map((_, i) => i % 239);
  for (const Kind of [Aes, AesGcm, AesGcmSiv]) {
    const key = new Kind(secret), [there, back] = Kind === Aes ? ["encryptBlocks", "decryptBlocks"] : ["seal", "open"];
    const words = (it) => (Kind === Aes ? [it] : [nonce, it, text]), changed = key[there](...words(text));
    results.expect(`3 MB by ${Kind.name}`, key[back](...words(changed)).every((byte, i) => byte === text[i]));
    changed[2e6] ^= 1;
    if (Kind !== Aes) results.expectThrown(`3 MB by ${Kind.name}`, () => key.open(...words(changed)), (it) => it.status === 6);
    results.expect(`texts of ${Kind.name} are wiped`, !holds(text.subarray(1000, 1032)) && !holds(text.subarray(2e6, 2e6 + 32)));
    results.expect(`a key of ${Kind.name} is kept`, holds(secret.subarray(0, 16)));
    Symbol.dispose ? key[Symbol.dispose]() : key.wipe();
    key.wipe();
    results.expect(`a key of ${Kind.name} is wiped`, !holds(secret.subarray(0, 16)));
  }
  results.expect("no memory grew", sizes() === before);
}

// Lengths around those from which on a message is processed in pieces, and at which a piece ends.
const LONG = [1048480, 1048576, 1048592, 1048608, 1048640, 1048656, 1048672, 2097152, 2097153, 3000000];

function compareWithNode(results, { Aes, AesGcm }, node) {
  for (let i = 0; i < 400 + LONG.length; i++) {
    const key = node.randomBytes([16, 24, 32][i % 3]), nonce = node.randomBytes(1 + (i % 40)), long = LONG[i - 400];
    const data = node.randomBytes(i % 2 && long ? long : i % 53), text = node.randomBytes(long ?? (i * i) % 1200);
    const gcm = node.createCipheriv(`aes-${key.length * 8}-gcm`, key, nonce), whole = text.subarray(0, text.length & -16);
    gcm.setAAD(data);
    const theirs = Buffer.concat([gcm.update(text), gcm.final(), gcm.getAuthTag()]), ours = new AesGcm(key), aes = new Aes(key);
    results.expect(`GCM as node's ${i}`, theirs.equals(ours.seal(nonce, text, data)) && text.equals(ours.open(nonce, theirs, data)));
    const ecb = node.createCipheriv(`aes-${key.length * 8}-ecb`, key, null);
    ecb.setAutoPadding(false);
    results.expect(`blocks as node's ${i}`, Buffer.concat([ecb.update(whole), ecb.final()]).equals(aes.encryptBlocks(whole)));
    ours.wipe();
    aes.wipe();
  }
}

export function check(fotsgure, node) {
  const results = new Results();
  blocks(results, fotsgure);
  sealed(results, fotsgure, fotsgure.AesGcm, GCM);
  sealed(results, fotsgure, fotsgure.AesGcmSiv, SIV);
  arguments_(results, fotsgure);
  secrecy(results, fotsgure);
  memory(results, fotsgure);
  if (node) compareWithNode(results, fotsgure, node);
  return results;
}
