/** A call that the library didn't do. `status` is that of the headers for C: 1 for the length of a key, 3 for an empty nonce, 5 for a message
 * that is too long, 6 for one that `open` refuses. */
export class FotsgureError extends Error {
  readonly status: number;
}

/** Accepts compiled modules. Either may be left out. */
export function load(modules: { aes?: WebAssembly.Module; gcm?: WebAssembly.Module }): void;

declare global {
  // TypeScript has it from 5.2 on.
  interface SymbolConstructor {
    readonly dispose: unique symbol;
  }
}

/** The block cipher, for those who build a mode. A key has 16, 24 or 32 bytes. */
export class Aes {
  constructor(key: Uint8Array);
  encryptBlocks(blocks: Uint8Array): Uint8Array;
  decryptBlocks(blocks: Uint8Array): Uint8Array;
  /** Overwrites the key. Nothing can be done with the object afterwards. */
  wipe(): void;
  [Symbol.dispose](): void;
}

/** AES-GCM (SP 800-38D): the text is followed by a tag of 16 bytes. Never seal two messages under one nonce. `open` throws a FotsgureError with
 * status 6 for all bytes that aren't what was sealed, whatever their lengths. */
export class AesGcm {
  constructor(key: Uint8Array);
  seal(nonce: Uint8Array, text: Uint8Array, additional?: Uint8Array): Uint8Array;
  open(nonce: Uint8Array, sealed: Uint8Array, additional?: Uint8Array): Uint8Array;
  wipe(): void;
  [Symbol.dispose](): void;
}

/** AES-GCM-SIV (RFC 8452): a key has 16 or 32 bytes, a nonce 12. `open` refuses as that of AES-GCM. */
export class AesGcmSiv {
  constructor(key: Uint8Array);
  seal(nonce: Uint8Array, text: Uint8Array, additional?: Uint8Array): Uint8Array;
  open(nonce: Uint8Array, sealed: Uint8Array, additional?: Uint8Array): Uint8Array;
  wipe(): void;
  [Symbol.dispose](): void;
}
