// node check_browser.mjs: the tests in a headless chromium (CHROMIUM), over a server on a port of this machine. The last line is
// `N passed, M failed`. The page's policy allows WebAssembly and no other code than that of this folder.
import { execFile } from "node:child_process";
import { mkdtempSync, readFileSync, rmSync } from "node:fs";
import { createServer } from "node:http";
import { tmpdir } from "node:os";
import { basename, extname, join } from "node:path";

const TYPES = { ".html": "text/html", ".mjs": "text/javascript", ".wasm": "application/wasm" };
const POLICY = "default-src 'self'; script-src 'self' 'wasm-unsafe-eval'";
const home = mkdtempSync(join(tmpdir(), "chromium-"));
let report = "the page said nothing\n0 passed, 1 failed", browser;

function answer(request, response) {
  const name = basename(request.url), type = TYPES[extname(name)];
  if (request.method === "POST") {
    request.setEncoding("utf8").on("data", (it) => (report = it)).on("end", () => {
      response.end();
      browser.kill();
    });
  } else if (type && ["check.html", "check_page.mjs", "check.mjs", "fotsgure.mjs", "aes.wasm", "gcm.wasm"].includes(name)) {
    response.writeHead(200, { "content-type": type, "content-security-policy": POLICY });
    response.end(readFileSync(new URL(name, import.meta.url)));
  } else {
    response.writeHead(404).end();
  }
}

const server = createServer(answer).listen(0, "127.0.0.1", () => {
  const words = ["--headless", "--no-sandbox", "--disable-gpu", "--disable-dev-shm-usage", `--user-data-dir=${home}`];
  const page = `http://127.0.0.1:${server.address().port}/check.html`;
  browser = execFile(process.env.CHROMIUM ?? "chromium", [...words, page], { timeout: 120000 }, () => {
    server.close();
    rmSync(home, { recursive: true, force: true });
    console.log(report);
    process.exit(report.endsWith(", 0 failed") ? 0 : 1);
  });
});
