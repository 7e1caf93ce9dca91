// AES, AES-GCM and AES-GCM-SIV, proved, in WebAssembly. Before a call returns, it wipes the keys and texts that it has put into a module's
// memory. Only a kept key stays there, until `wipe`, or until its object is garbage. Copies in JavaScript's own memory are the caller's.

const DONE = 0, KEY_LENGTH = 1, NONCE_LENGTH = 3, TOO_LONG = 5, REFUSED = 6;
const WHY = {
  [NONCE_LENGTH]: "the nonce is empty",
  [TOO_LONG]: "the message is too long",
  [REFUSED]: "the message was changed, or sealed under another key or nonce",
};
const BLOCK = 16, TAG = 16, PAGE = 65536, NOTHING = new Uint8Array();
// How many bytes a call has in a memory: for the struct of a message in pieces, as in the headers for C, and for a piece.
const MESSAGE = 80, PIECE = 1048576, BUFFER = MESSAGE + PIECE;
// Of each class: its module, how its calls begin, how many bytes the struct of a key has, as in the headers for C, and which lengths are
// allowed for keys and nonces.
const KINDS = {
  Aes: { module: "aes", prefix: "fotsgure_aes", struct: 484, keys: [16, 24, 32] },
  AesGcm: { module: "gcm", prefix: "fotsgure_gcm", struct: 1780, keys: [16, 24, 32], inPieces: true },
  AesGcmSiv: { module: "gcm", prefix: "fotsgure_gcm_siv", struct: 484, keys: [16, 32], nonce: 12 },
};
const libraries = {};

/** A call that the library didn't do. `status` is that of the headers for C. */
export class FotsgureError extends Error {
  constructor(status, why = WHY[status] ?? `the library returned the status ${status}`) {
    super(why);
    this.name = "FotsgureError";
    this.status = status;
  }
}

function expectDone(status) {
  if (status !== DONE) throw new FotsgureError(status);
}

const rounded = (size) => Math.ceil(size / BLOCK) * BLOCK;

/** One instance of a module. Its memory has a buffer for one call first, then the kept keys. */
class Library {
  constructor(module, kind, size = BUFFER) {
    this.module = module;
    this.kind = kind;
    this.calls = new WebAssembly.Instance(module, {}).exports;
    [this.setKey, this.seal, this.open] = ["set_key", "seal", "open"].map((it) => this.calls[`${kind.prefix}_${it}`]);
    this.end = rounded(this.calls.__heap_base.value);
    this.size = size;
    this.buffer = this.reserve(size);
    this.free = [];
  }

  /** The address of so many more bytes. When the memory grows, the old view of it ends. */
  reserve(size) {
    const at = this.end, end = at + rounded(size), more = end - this.calls.memory.buffer.byteLength;
    if (more > 0) this.calls.memory.grow(Math.ceil(more / PAGE));
    this.bytes = new Uint8Array(this.calls.memory.buffer);
    this.end = end;
    return at;
  }

  wipe(at, size) {
    this.bytes.fill(0, at, at + size);
  }

  /** Copies bytes to the address `to`, piece by piece, for a call on each. What it makes of them goes to `made`, if that is given. */
  pass(bytes, to, call, made) {
    for (let from = 0; from < bytes.length; from += PIECE) {
      const piece = bytes.subarray(from, from + PIECE);
      this.bytes.set(piece, to);
      expectDone(call(piece.length));
      made?.set(this.bytes.subarray(to, to + piece.length), from);
    }
  }
}

/** Where a key is: a library, and an address in its memory. */
class Place {
  constructor(library) {
    this.library = library;
    this.at = library.free.pop() ?? library.reserve(library.kind.struct);
  }

  /** Overwrites the key. The next key gets this place. */
  wipe() {
    this.library.wipe(this.at, this.library.kind.struct);
    this.library.free.push(this.at);
  }

  /** This place, or, if its buffer has less than `size` bytes, a copy of it in an instance for one call. No memory can shrink, so the one
   * that has the keys doesn't grow for a message. */
  forCall(size) {
    const { library, at } = this;
    if (size <= library.size) return this;
    const copy = new Place(new Library(library.module, library.kind, size));
    copy.library.bytes.set(library.bytes.subarray(at, at + library.kind.struct), copy.at);
    return copy;
  }

  /** Wipes the buffer, and the copy of the key, if `used`, which `forCall` made, has one. */
  endCall(used, size) {
    used.library.wipe(used.library.buffer, size);
    if (used !== this) used.wipe();
  }
}

/** Accepts compiled modules: `await WebAssembly.compileStreaming(fetch(..))`, or in node `new WebAssembly.Module(bytes)`. Either may be left out. */
export function load(modules) {
  for (const [name, kind] of Object.entries(KINDS)) if (modules[kind.module]) libraries[name] = new Library(modules[kind.module], kind);
}

function checked(it, what) {
  if (!(it instanceof Uint8Array)) throw new TypeError(`${what} isn't a Uint8Array`);
  return it;
}

// Wipes the keys of objects that are garbage.
const forgotten = new FinalizationRegistry((place) => place.wipe());

// Where the key of an object is, for this file alone.
let placeOf;

/** A key that is kept in a module's memory. What leads there is private: nothing that serializes, prints or copies an object finds it. */
class Key {
  #place;

  static {
    placeOf = (key) => {
      if (!key.#place) throw new Error("the key was wiped");
      return key.#place;
    };
  }

  constructor(name, key) {
    const library = libraries[name];
    if (!library) throw new Error(`call load with the module for ${name} first`);
    const { keys } = library.kind, allowed = keys.includes(checked(key, "the key").length);
    if (!allowed) throw new FotsgureError(KEY_LENGTH, `a key of ${name} has ${keys.join(" or ")} bytes`);
    this.#place = new Place(library);
    forgotten.register(this, this.#place, this);
    library.bytes.set(key, library.buffer);
    const status = library.setKey(this.#place.at, library.buffer, key.length);
    library.wipe(library.buffer, key.length);
    expectDone(status);
  }

  /** Overwrites the key. Nothing can be done with the object afterwards. */
  wipe() {
    if (!this.#place) return;
    forgotten.unregister(this);
    this.#place.wipe();
    this.#place = undefined;
  }

  // For `using`, in engines that have it.
  [Symbol.dispose ?? Symbol("dispose")]() {
    this.wipe();
  }

  // The fields of derived classes stay out of logs too.
  toJSON() {
    return {};
  }

  [Symbol.for("nodejs.util.inspect.custom")]() {
    return `${this.constructor.name} {}`;
  }
}

function processed(place, blocks, call) {
  const { library, at } = place, { bytes: memory, buffer } = library, size = checked(blocks, "blocks").length;
  if (size % BLOCK) throw new RangeError("the last block isn't whole");
  if (size > PIECE) {
    const made = new Uint8Array(size);
    for (let from = 0; from < size; from += PIECE) made.set(processed(place, blocks.subarray(from, from + PIECE), call), from);
    return made;
  }
  memory.set(blocks, buffer);
  const status = call(at, buffer, size / BLOCK), made = memory.slice(buffer, buffer + size);
  library.wipe(buffer, size);
  expectDone(status);
  return made;
}

/** The block cipher, for those who build a mode. */
export class Aes extends Key {
  constructor(key) {
    super("Aes", key);
  }

  encryptBlocks(blocks) {
    const place = placeOf(this);
    return processed(place, blocks, place.library.calls.fotsgure_aes_encrypt_blocks);
  }

  decryptBlocks(blocks) {
    const place = placeOf(this);
    return processed(place, blocks, place.library.calls.fotsgure_aes_decrypt_blocks);
  }
}

/** Seals or opens a message that is in the buffer as a whole: its text, then the tag, the nonce and the additional data. */
function whole(place, seals, nonce, bytes, length, additional) {
  const toNonce = length + TAG, toAdditional = toNonce + nonce.length, size = toAdditional + additional.length;
  const used = place.forCall(size), { library, at } = used, { bytes: memory, buffer } = library, call = seals ? library.seal : library.open;
  try {
    memory.set(bytes, buffer);
    memory.set(nonce, buffer + toNonce);
    memory.set(additional, buffer + toAdditional);
    const status = library.kind.nonce
      ? call(at, buffer + toNonce, buffer + toAdditional, additional.length, buffer, length, buffer + length)
      : call(at, buffer + toNonce, nonce.length, buffer + toAdditional, additional.length, buffer, length, buffer + length, TAG);
    expectDone(status);
    return memory.slice(buffer, buffer + (seals ? toNonce : length));
  } finally {
    place.endCall(used, size);
  }
}

/** The same for a long message of GCM, piece by piece. Nobody gets what was decrypted before the tag is found right, else it is wiped. */
function inPieces(place, seals, nonce, bytes, length, additional) {
  const size = MESSAGE + Math.max(PIECE, nonce.length), made = new Uint8Array(seals ? length + TAG : length);
  const used = place.forCall(size), { library, at } = used, { calls, bytes: memory, buffer: message } = library, piece = message + MESSAGE;
  const process = seals ? calls.fotsgure_gcm_encrypt : calls.fotsgure_gcm_decrypt_unverified;
  try {
    memory.set(nonce, piece);
    expectDone(calls.fotsgure_gcm_begin(at, message, piece, nonce.length));
    library.pass(additional, piece, (count) => calls.fotsgure_gcm_additional(at, message, piece, count));
    library.pass(bytes.subarray(0, length), piece, (count) => process(at, message, piece, count), made);
    memory.set(bytes.subarray(length), piece);
    expectDone(seals ? calls.fotsgure_gcm_finish(at, message, piece) : calls.fotsgure_gcm_accept(at, message, piece, TAG));
    made.set(memory.subarray(piece, piece + made.length - length), length);
    return made;
  } catch (it) {
    made.fill(0);
    throw it;
  } finally {
    place.endCall(used, size);
  }
}

function message(place, seals, nonce, bytes, length, additional) {
  const isLong = length + TAG + nonce.length + additional.length > BUFFER;
  return (isLong && place.library.kind.inPieces ? inPieces : whole)(place, seals, nonce, bytes, length, additional);
}

/** What GCM and GCM-SIV share. */
class Sealing extends Key {
  seal(nonce, text, additional = NOTHING) {
    const place = placeOf(this), wanted = place.library.kind.nonce;
    checked(text, "the text");
    checked(additional, "the additional data");
    if (checked(nonce, "the nonce").length !== (wanted ?? nonce.length)) throw new RangeError(`the nonce doesn't have ${wanted} bytes`);
    return message(place, true, nonce, text, text.length, additional);
  }

  open(nonce, sealed, additional = NOTHING) {
    const place = placeOf(this), wanted = place.library.kind.nonce;
    checked(sealed, "the message");
    checked(additional, "the additional data");
    const nonceFits = checked(nonce, "the nonce").length === (wanted ?? nonce.length);
    try {
      if (sealed.length < TAG || !nonceFits) throw new FotsgureError(REFUSED);
      return message(place, false, nonce, sealed, sealed.length - TAG, additional);
    } catch (it) {
      throw it instanceof FotsgureError ? new FotsgureError(REFUSED) : it;
    }
  }
}

/** AES-GCM (SP 800-38D). The text is followed by a tag of 16 bytes. Never seal two messages under one nonce. */
export class AesGcm extends Sealing {
  constructor(key) {
    super("AesGcm", key);
  }
}

/** AES-GCM-SIV (RFC 8452), with keys of 16 or 32 bytes and nonces of 12. */
export class AesGcmSiv extends Sealing {
  constructor(key) {
    super("AesGcmSiv", key);
  }
}
