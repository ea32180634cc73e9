// Headless Chromium over a pipe, by the Chrome DevTools Protocol; and a server of static files.
import { spawn } from "node:child_process";
import { createReadStream, existsSync, mkdtempSync, rmSync, statSync } from "node:fs";
import { createServer } from "node:http";
import { tmpdir } from "node:os";
import { extname, join, normalize } from "node:path";

const MEDIA = { ".html": "text/html; charset=utf-8", ".js": "text/javascript", ".css": "text/css" };
const PATIENCE = 60_000;

/** Serves a folder on a port of its own; `asked` are the paths that were asked for. */
export async function serve(folder) {
  const asked = [];
  const server = createServer((request, response) => {
    asked.push(request.url);
    const file = join(folder, normalize(new URL(request.url, "http://h").pathname.replace(/\/$/, "/index.html")));
    if (!existsSync(file) || !statSync(file).isFile()) {
      response.writeHead(404).end();
      return;
    }
    response.writeHead(200, { "Content-Type": MEDIA[extname(file)] ?? "application/octet-stream" });
    createReadStream(file).pipe(response);
  });
  await new Promise((done) => server.listen(0, "127.0.0.1", done));
  return { asked, url: `http://127.0.0.1:${server.address().port}/`, close: () => server.close() };
}

/** A browser with one page. */
export class Browser {
  static async start(program) {
    const it = new Browser();
    it.folder = mkdtempSync(join(tmpdir(), "playground-"));
    const words = ["--headless=new", "--no-sandbox", "--disable-gpu", "--disable-dev-shm-usage", "--no-first-run", "--disable-extensions",
      "--hide-scrollbars", "--disable-background-networking", "--remote-debugging-pipe", `--user-data-dir=${it.folder}`, "about:blank"];
    it.process = spawn(program, words, { stdio: ["ignore", "ignore", "ignore", "pipe", "pipe"] });
    Object.assign(it, { number: 0, waiting: new Map(), events: [], rest: "" });
    it.process.stdio[4].setEncoding("utf8").on("data", (text) => it.take(text));
    const { targetInfos } = await it.ask("Target.getTargets");
    const { sessionId } = await it.ask("Target.attachToTarget", { targetId: targetInfos.find(({ type }) => type === "page").targetId, flatten: true });
    it.session = sessionId;
    for (const name of ["Page", "Runtime", "Network", "Log", "Accessibility"]) await it.ask(`${name}.enable`);
    return it;
  }

  take(text) {
    const parts = (this.rest + text).split("\0");
    this.rest = parts.pop();
    for (const part of parts) {
      const told = JSON.parse(part), done = this.waiting.get(told.id);
      this.waiting.delete(told.id);
      if (done) done(told);
      else this.events.push(told);
    }
  }

  /** Asks the browser, and waits for its answer. */
  ask(method, params = {}) {
    const id = ++this.number;
    this.process.stdio[3].write(`${JSON.stringify({ id, method, params, sessionId: this.session })}\0`);
    return new Promise((resolve, reject) => {
      const late = setTimeout(() => reject(new Error(`${method}: no answer`)), PATIENCE);
      this.waiting.set(id, (told) => {
        clearTimeout(late);
        if (told.error) reject(new Error(`${method}: ${told.error.message}`));
        else resolve(told.result);
      });
    });
  }

  /** The value of an expression in the page. */
  async value(expression) {
    const { result, exceptionDetails } = await this.ask("Runtime.evaluate", { expression, awaitPromise: true, returnByValue: true });
    if (exceptionDetails) throw new Error(exceptionDetails.exception?.description ?? exceptionDetails.text);
    return result.value;
  }

  /** Waits until an expression is true. */
  async until(expression) {
    const end = Date.now() + PATIENCE;
    while (!(await this.value(expression))) {
      if (Date.now() > end) return false;
      await new Promise((done) => setTimeout(done, 50));
    }
    return true;
  }

  open(url) {
    return this.ask("Page.navigate", { url });
  }

  /** Presses a key, perhaps with Ctrl (2) or Shift (8). */
  async press(key, code, modifiers = 0, text = undefined) {
    const about = { key, code: key, windowsVirtualKeyCode: code, modifiers, text };
    await this.ask("Input.dispatchKeyEvent", { type: "keyDown", ...about, commands: key === "a" && modifiers === 2 ? ["selectAll"] : [] });
    await this.ask("Input.dispatchKeyEvent", { type: "keyUp", ...about, text: undefined });
  }

  /** Types a text over all of what the field with this selector has. */
  async type(selector, text) {
    await this.value(`document.querySelector(${JSON.stringify(selector)}).focus()`);
    await this.press("a", 65, 2);
    await this.ask("Input.insertText", { text });
  }

  /** A window of this width, in light or dark colours. */
  async look(width, height, scheme) {
    await this.ask("Emulation.setDeviceMetricsOverride", { width, height, deviceScaleFactor: 1, mobile: false });
    await this.ask("Emulation.setEmulatedMedia", { features: [{ name: "prefers-color-scheme", value: scheme }] });
  }

  async picture(isWhole) {
    const { data } = await this.ask("Page.captureScreenshot", { format: "png", captureBeyondViewport: isWhole });
    return Buffer.from(data, "base64");
  }

  async stop() {
    const gone = new Promise((done) => this.process.once("exit", done));
    this.process.kill();
    await gone;
    rmSync(this.folder, { recursive: true, force: true, maxRetries: 5, retryDelay: 200 });
  }
}
