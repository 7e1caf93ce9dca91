// The same for node: the modules are read from the folder of this file.
import { readFileSync } from "node:fs";
import { load } from "./fotsgure.mjs";

export * from "./fotsgure.mjs";

const module = (name) => new WebAssembly.Module(readFileSync(new URL(`${name}.wasm`, import.meta.url)));
load({ aes: module("aes"), gcm: module("gcm") });
