// A headless Chromium, which is told what to do by its debugging protocol through two pipes, and a server for the
// page's files.
import { spawn } from "node:child_process";
import fs from "node:fs";
import http from "node:http";
import os from "node:os";
import path from "node:path";

const TYPES = {
  ".html": "text/html",
  ".css": "text/css",
  ".js": "text/javascript",
  ".wasm": "application/wasm",
  ".graphql": "text/plain; charset=utf-8"
};

// Serves the files of a folder at a port that is free. The answer is the server and its address.
export async function serve(folder) {
  const server = http.createServer((request, response) => {
    const file = path.join(
      folder, path.normalize(new URL(request.url, "http://localhost").pathname).replace(/\/$/, "/index.html")
    );
    fs.readFile(file, (error, content) => {
      response.writeHead(error ? 404 : 200, { "Content-Type": TYPES[path.extname(file)] ?? "text/plain" });
      response.end(content);
    });
  });
  await new Promise((done) => server.listen(0, "127.0.0.1", done));
  return { server, address: `http://127.0.0.1:${server.address().port}/` };
}

export class Chromium {
  static async start() {
    const chromium = new Chromium();
    const { targetId } = await chromium.send("Target.createTarget", { url: "about:blank" });
    const { sessionId } = await chromium.send("Target.attachToTarget", { targetId, flatten: true });
    chromium.session = sessionId;
    for (const part of ["Page", "Runtime"]) await chromium.send(`${part}.enable`);
    return chromium;
  }

  constructor() {
    this.folder = fs.mkdtempSync(path.join(os.tmpdir(), "dumyroke-page-"));
    const words = [
      "--headless=new", "--no-sandbox", "--disable-gpu", "--disable-dev-shm-usage", "--no-first-run",
      "--remote-debugging-pipe", `--user-data-dir=${this.folder}`
    ];
    this.process = spawn("chromium", words, { stdio: ["ignore", "ignore", "ignore", "pipe", "pipe"] });
    this.waiting = new Map();
    this.count = 0;
    // what the page said went wrong
    this.faults = [];
    let text = "";
    this.process.stdio[4].setEncoding("utf8").on("data", (part) => {
      text += part;
      for (let end = text.indexOf("\0"); end >= 0; end = text.indexOf("\0")) {
        this.#receive(JSON.parse(text.slice(0, end)));
        text = text.slice(end + 1);
      }
    });
  }

  #receive({ id, result, error, method, params }) {
    if (method === "Runtime.exceptionThrown")
      this.faults.push(params.exceptionDetails.exception?.description ?? params.exceptionDetails.text);
    const done = this.waiting.get(id);
    this.waiting.delete(id);
    if (error) done?.[1](new Error(error.message));
    else done?.[0](result);
  }

  send(method, params = {}) {
    const id = ++this.count;
    this.process.stdio[3].write(`${JSON.stringify({ id, method, params, sessionId: this.session })}\0`);
    return new Promise((done, failed) => this.waiting.set(id, [done, failed]));
  }

  // The value of an expression in the page, or of what it promises.
  async evaluate(expression) {
    const { result, exceptionDetails } =
      await this.send("Runtime.evaluate", { expression, awaitPromise: true, returnByValue: true });
    if (exceptionDetails) throw new Error(exceptionDetails.exception?.description ?? exceptionDetails.text);
    return result.value;
  }

  // Waits until an expression holds, at most some seconds.
  async until(expression, seconds = 10) {
    for (const end = Date.now() + seconds * 1000; Date.now() < end; await new Promise((done) => setTimeout(done, 20)))
      if (await this.evaluate(expression)) return;
    throw new Error(`this did not come to hold: ${expression}`);
  }

  async open(address) {
    await this.send("Page.navigate", { url: "about:blank" });
    await this.send("Page.navigate", { url: address });
    await this.until("document.readyState === 'complete' && location.href !== 'about:blank'");
  }

  async size(width, height, scheme = "light") {
    await this.send("Emulation.setDeviceMetricsOverride", { width, height, deviceScaleFactor: 1, mobile: false });
    await this.send("Emulation.setEmulatedMedia", { features: [{ name: "prefers-color-scheme", value: scheme }] });
  }

  async press(key, code = 0, modifiers = 0) {
    for (const type of ["rawKeyDown", "keyUp"])
      await this.send("Input.dispatchKeyEvent", { type, key, code: key, windowsVirtualKeyCode: code, modifiers });
  }

  // Types by keys. Input.insertText is the way of input methods, whose time grows with the square of the lines before
  // the cursor in any text area.
  async type(text) {
    for (const letter of text)
      for (const type of ["keyDown", "keyUp"])
        await this.send("Input.dispatchKeyEvent", { type, key: letter, text: type === "keyDown" ? letter : "" });
  }

  async move(x, y) {
    await this.send("Input.dispatchMouseEvent", { type: "mouseMoved", x, y });
  }

  async click(x, y) {
    await this.move(x, y);
    for (const type of ["mousePressed", "mouseReleased"])
      await this.send("Input.dispatchMouseEvent", { type, x, y, button: "left", clickCount: 1 });
  }

  async picture(file) {
    const { data } = await this.send("Page.captureScreenshot", { format: "png" });
    fs.writeFileSync(file, Buffer.from(data, "base64"));
  }

  stop() {
    this.process.kill("SIGKILL");
    this.process.on("exit", () => fs.rmSync(this.folder, { recursive: true, force: true }));
  }
}
