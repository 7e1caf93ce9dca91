// AES by Node's crypto, which uses OpenSSL's: round trips, wrong tags and truncated texts.
// usage: OPENSSL_CONF=FILE node --openssl-shared-config node.js
const crypto = require('crypto');

let passed = 0, failed = 0;
const count = right => { if (right) passed++; else failed++; };
const refuses = call => { try { call(); return false; } catch { return true; } };

for (const name of ['aes-128-gcm', 'aes-192-gcm', 'aes-256-gcm', 'aes-128-ctr', 'aes-256-ctr', 'aes-128-cbc',
    'aes-256-cbc', 'aes-128-ecb']) {
    const mode = name.slice(8), key = Buffer.alloc(Number(name.slice(4, 7)) / 8, 7);
    const iv = mode === 'ecb' ? null : Buffer.alloc(mode === 'gcm' ? 12 : 16, 9);
    const text = crypto.randomBytes(100003);
    const cipher = crypto.createCipheriv(name, key, iv);
    const sealed = Buffer.concat([cipher.update(text.subarray(0, 777)), cipher.update(text.subarray(777)), cipher.final()]);
    const open = (bytes, tag) => {
        const decipher = crypto.createDecipheriv(name, key, iv);
        if (tag) decipher.setAuthTag(tag);
        return Buffer.concat([decipher.update(bytes), decipher.final()]);
    };
    const tag = mode === 'gcm' ? cipher.getAuthTag() : null;
    count(open(sealed, tag).equals(text));
    if (tag) {
        tag[3] ^= 1;
        count(refuses(() => open(sealed, tag)));
    }
    if (mode === 'cbc') count(refuses(() => open(sealed.subarray(0, 20))));
}
console.log(`OpenSSL ${process.versions.openssl}: ${passed} passed, ${failed} failed`);
process.exit(failed === 0 ? 0 : 1);
