// A headless Chromium for the test, spoken to over a pipe (DevTools protocol). The page doesn't have this file in it.
"use strict";
const fs = require("fs");
const os = require("os");
const path = require("path");
const { spawn, spawnSync } = require("child_process");

// The Chromium that there is, or null.
function find() {
  for (const name of [process.env.CHROMIUM, "chromium", "chromium-browser", "google-chrome"])
    if (name && spawnSync(name, ["--version"], { stdio: "ignore" }).status === 0) return name;
  return null;
}

class Browser {
  constructor(program) {
    this.room = fs.mkdtempSync(path.join(os.tmpdir(), "afr-page-"));
    const words = ["--headless=new", "--no-sandbox", "--disable-gpu", "--hide-scrollbars", "--no-first-run", "--remote-debugging-pipe"];
    this.child = spawn(program, [...words, `--user-data-dir=${this.room}`, "about:blank"], { stdio: ["ignore", "ignore", "ignore", "pipe", "pipe"] });
    this.asked = new Map();
    this.number = 0;
    this.heard = [];
    let rest = "";
    this.child.stdio[4].on("data", (piece) => {
      const parts = (rest + piece).split("\0");
      rest = parts.pop();
      parts.forEach((text) => this.hear(JSON.parse(text)));
    });
  }
  hear(message) {
    const asked = this.asked.get(message.id);
    if (asked === undefined) {
      this.heard.push(message);
      return;
    }
    this.asked.delete(message.id);
    if (message.error) asked.fail(new Error(JSON.stringify(message.error)));
    else asked.done(message.result);
  }
  ask(method, params = {}) {
    const id = ++this.number;
    this.child.stdio[3].write(JSON.stringify({ id, method, params, sessionId: this.session }) + "\0");
    return new Promise((done, fail) => this.asked.set(id, { done, fail }));
  }
  // Opens a file at a size of window, and waits until it is loaded.
  async open(url, width, height) {
    if (this.session === undefined) {
      const { targetId } = await this.ask("Target.createTarget", { url: "about:blank" });
      this.session = (await this.ask("Target.attachToTarget", { targetId, flatten: true })).sessionId;
      for (const domain of ["Page", "Runtime", "Network", "Log"]) await this.ask(domain + ".enable");
    }
    await this.ask("Emulation.setDeviceMetricsOverride", { width, height, deviceScaleFactor: 1, mobile: false });
    await this.go("about:blank");
    await this.go(url);
  }
  async go(url) {
    this.heard.length = 0;
    await this.ask("Page.navigate", { url });
    while (!this.heard.some((it) => it.method === "Page.loadEventFired")) await new Promise((done) => setTimeout(done, 20));
  }
  async run(script) {
    const { result, exceptionDetails } = await this.ask("Runtime.evaluate", { expression: script, returnByValue: true, awaitPromise: true });
    if (exceptionDetails) throw new Error(exceptionDetails.exception ? exceptionDetails.exception.description : exceptionDetails.text);
    return result.value;
  }
  async key(key, code) {
    const text = key.length === 1 ? key : undefined;
    await this.ask("Input.dispatchKeyEvent", { type: "keyDown", key, windowsVirtualKeyCode: code, text });
    await this.ask("Input.dispatchKeyEvent", { type: "keyUp", key, windowsVirtualKeyCode: code });
  }
  async picture(name) {
    const { data } = await this.ask("Page.captureScreenshot", { format: "png" });
    fs.writeFileSync(name, Buffer.from(data, "base64"));
  }
  // What was fetched beside the page itself, and what stands on the console.
  fetched() {
    return this.heard.filter((it) => it.method === "Network.requestWillBeSent").map((it) => it.params.request.url).slice(1);
  }
  errors() {
    const kinds = ["Runtime.exceptionThrown", "Runtime.consoleAPICalled", "Log.entryAdded"];
    return this.heard.filter((it) => kinds.includes(it.method)).map((it) => JSON.stringify(it.params).slice(0, 300));
  }
  async close() {
    await this.ask("Browser.close").catch(() => {});
    await new Promise((done) => (this.child.exitCode === null ? this.child.once("exit", done) : done()));
    fs.rmSync(this.room, { recursive: true, force: true, maxRetries: 5, retryDelay: 200 });
  }
}

module.exports = { Browser, find };
