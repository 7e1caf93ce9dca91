// node --expose-gc check_node.mjs: the tests in node. The last line is `N passed, M failed`. PACKAGE names the package, else it is in this
// folder, where `run` copies both.
import crypto from "node:crypto";
import { inspect } from "node:util";
import { check, holds, memories } from "./check.mjs";

const fotsgure = await import(process.env.PACKAGE ?? "./node.mjs"), { Aes, AesGcm, AesGcmSiv } = fotsgure;
const results = check(fotsgure, crypto), { failed } = results;

const everything = { showHidden: true, depth: Infinity, maxArrayLength: null, maxStringLength: null };
for (const Kind of [Aes, AesGcm, AesGcmSiv])
  for (const customInspect of [true, false]) {
    const shown = inspect({ key: new Kind(new Uint8Array(16)) }, { ...everything, customInspect });
    results.expect(`what inspect shows of ${Kind.name}`, shown === `{ key: ${Kind.name} {} }`);
  }

// Keys that nobody wipes are wiped when they are garbage, and the next ones get their places. So are the memories of long messages.
const secret = crypto.randomBytes(16), size = () => memories()[1].buffer.byteLength;
const make = () => Array.from({ length: 20000 }, () => new AesGcm(secret)).length;
const turn = () => new Promise((then) => setTimeout(then, 10));
async function collected() {
  for (let i = 0; i < 20 && (holds(secret) || memories().length > 3); i++) {
    await turn(); // what this turn has looked at isn't garbage yet
    globalThis.gc();
    await turn();
  }
  return !holds(secret) && memories().length === 3;
}
make();
const most = size();
results.expect("20,000 keys are kept", holds(secret));
results.expect("20,000 keys are wiped", await collected());
make();
results.expect("20,000 more keys need no memory", size() === most);

for (const it of failed.slice(0, 10)) console.log(`failed: ${it}`);
console.log(`${results.passed} passed, ${failed.length} failed`);
process.exit(failed.length ? 1 : 0);
