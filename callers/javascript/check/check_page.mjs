// The tests in a page: it sends their report to the server that it comes from.
import { check } from "./check.mjs";
import * as fotsgure from "./fotsgure.mjs";

async function report() {
  const [aes, gcm] = await Promise.all(["aes", "gcm"].map((name) => WebAssembly.compileStreaming(fetch(`${name}.wasm`))));
  fotsgure.load({ aes, gcm });
  const { passed, failed } = check(fotsgure);
  return [...failed.slice(0, 10), `${passed} passed, ${failed.length} failed`].join("\n");
}

await fetch("report", { method: "POST", body: await report().catch((it) => `${it}\n0 passed, 1 failed`) });
