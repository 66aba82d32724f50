// Serves a folder with a strict policy, opens its page index.html in a browser without a screen, and prints what the page posts:
// node tests/npm/browse.mjs FOLDER BROWSER HOME. BROWSER is chromium or firefox-esr, and keeps its files in the folder HOME.

import { spawn } from "node:child_process";
import { mkdirSync } from "node:fs";
import { readFile } from "node:fs/promises";
import { createServer } from "node:http";
import { extname, join } from "node:path";

const [folder, command, home] = process.argv.slice(2);
const profile = join(home, "profile");
const WORDS = {
  // (as root it starts only without a sandbox)
  chromium: [
    ...["--headless=new", "--disable-gpu", "--disable-dev-shm-usage", `--user-data-dir=${profile}`],
    ...(process.getuid() === 0 ? ["--no-sandbox"] : []),
  ],
  "firefox-esr": ["--headless", "--no-remote", "--profile", profile],
};
const POLICY = "default-src 'none'; script-src 'self' 'wasm-unsafe-eval'; worker-src 'self'; connect-src 'self'; frame-src 'self'";
const TYPES = { ".html": "text/html", ".mjs": "text/javascript", ".wasm": "application/wasm" };

async function textOf(request) {
  const parts = [];
  for await (const part of request) parts.push(part);
  return Buffer.concat(parts).toString();
}

const server = createServer(async (request, response) => {
  const { pathname } = new URL(request.url, "http://localhost");
  if (request.method === "POST") {
    console.log(await textOf(request));
    response.end();
    browser.kill();
    return;
  }
  try {
    const body = await readFile(join(folder, pathname));
    response.setHeader("Content-Type", TYPES[extname(pathname)] ?? "text/plain");
    // (demo.html has its own policy)
    if (pathname !== "/demo.html") response.setHeader("Content-Security-Policy", POLICY);
    response.writeHead(200).end(body);
  } catch {
    response.writeHead(404).end();
  }
});
await new Promise((resolve) => server.listen(0, "127.0.0.1", resolve));
const address = `http://127.0.0.1:${server.address().port}/index.html`;
mkdirSync(profile, { recursive: true });
const browser = spawn(command, [...WORDS[command], address], { stdio: "ignore", env: { ...process.env, HOME: home } });
browser.on("error", (error) => console.log(String(error)));
browser.on("close", () => process.exit());
