// Two browsers as the tests drive them: each opens a page, runs code in it, and takes a picture. Chromium is told by its own protocol, and
// Firefox by WebDriver BiDi.
import { spawn } from "node:child_process";
import fs from "node:fs";
import os from "node:os";
import path from "node:path";
import process from "node:process";

const pause = time => new Promise(resolve => setTimeout(resolve, time));

// Commands that are numbered and answered over a socket. What it tells besides is not heard.
class Wire {
    constructor(socket) {
        this.socket = socket;
        this.count = 0;
        this.waiting = new Map();
        socket.onmessage = ({ data }) => this.hear(JSON.parse(data));
    }

    static async to(address) {
        const socket = new WebSocket(address);
        await new Promise((resolve, reject) => {
            socket.onopen = resolve;
            socket.onerror = () => reject(new Error(`no socket at ${address}`));
        });
        return new Wire(socket);
    }

    hear(message) {
        const answer = this.waiting.get(message.id);
        if (!answer) return;
        this.waiting.delete(message.id);
        if (message.error) answer.reject(new Error(JSON.stringify(message)));
        else answer.resolve(message.result);
    }

    call(method, params = {}) {
        const id = ++this.count;
        this.socket.send(JSON.stringify({ id, method, params }));
        return new Promise((resolve, reject) => this.waiting.set(id, { resolve, reject }));
    }
}

// A program that listens at a port of its own choice, which it tells on standard error.
async function started(program, words, pattern) {
    const home = fs.mkdtempSync(path.join(os.tmpdir(), "page-"));
    const child = spawn(program, words(home), { stdio: ["ignore", "ignore", "pipe"], env: { ...process.env, HOME: home, TMPDIR: home } });
    const address = await new Promise((resolve, reject) => {
        let told = "";
        child.on("error", reject);
        child.on("exit", () => reject(new Error(`${program} ended: ${told}`)));
        child.stderr.on("data", data => {
            told += data;
            const found = pattern.exec(told);
            if (found) resolve(found[1]);
        });
        setTimeout(() => reject(new Error(`${program} does not listen: ${told}`)), 60000).unref();
    });
    child.removeAllListeners("exit");
    return {
        address,
        async end() {
            child.kill();
            await pause(500);
            fs.rmSync(home, { recursive: true, force: true, maxRetries: 5 });
        },
    };
}

const asPromise = body => `(async () => JSON.stringify((await (async () => { ${body} })()) ?? null))()`;

export class Chromium {
    static name = "Chromium";

    static async start() {
        const words = home => [
            "--headless=new", "--remote-debugging-port=0", `--user-data-dir=${home}`, "--hide-scrollbars", "--no-first-run",
            "--disable-gpu", "--disable-dev-shm-usage", ...(process.getuid() === 0 ? ["--no-sandbox"] : []), "about:blank",
        ];
        const browser = new Chromium();
        browser.program = await started("chromium", words, /DevTools listening on ws:\/\/([^/]+)\//);
        const tabs = await (await fetch(`http://${browser.program.address}/json`)).json();
        browser.wire = await Wire.to(tabs.find(({ type }) => type === "page").webSocketDebuggerUrl);
        await browser.wire.call("Page.enable");
        return browser;
    }

    async open(address) {
        // A change of the fragment alone would not open the page anew.
        await this.wire.call("Page.navigate", { url: "about:blank" });
        await this.wire.call("Page.navigate", { url: address });
    }

    async run(body) {
        const { result, exceptionDetails } = await this.wire.call("Runtime.evaluate", {
            expression: asPromise(body), awaitPromise: true, returnByValue: true,
        });
        if (exceptionDetails) throw new Error(JSON.stringify(exceptionDetails));
        return JSON.parse(result.value);
    }

    async look(width, height, theme) {
        await this.wire.call("Emulation.setDeviceMetricsOverride", { width, height, deviceScaleFactor: 1, mobile: false });
        await this.wire.call("Emulation.setEmulatedMedia", { features: [{ name: "prefers-color-scheme", value: theme }] });
    }

    async picture(file) {
        await pause(300);
        const { data } = await this.wire.call("Page.captureScreenshot", { format: "png" });
        fs.writeFileSync(file, Buffer.from(data, "base64"));
    }

    // Presses a key, as a user does.
    async press(key) {
        const code = { Tab: 9, ArrowRight: 39, Enter: 13 }[key];
        const common = { key, code: key, windowsVirtualKeyCode: code };
        await this.wire.call("Input.dispatchKeyEvent", { type: "keyDown", ...common });
        await this.wire.call("Input.dispatchKeyEvent", { type: "keyUp", ...common });
    }

    end() {
        return this.program.end();
    }
}

export class Firefox {
    static name = "Firefox";

    static async start(theme = "light") {
        const words = home => {
            fs.writeFileSync(path.join(home, "user.js"), `user_pref("layout.css.prefers-color-scheme.content-override", ${theme === "dark" ? 0 : 1});\n`);
            return ["--headless", "--no-remote", "--remote-debugging-port=0", "--profile", home, "about:blank"];
        };
        const browser = new Firefox();
        browser.theme = theme;
        browser.program = await started("firefox-esr", words, /WebDriver BiDi listening on ws:\/\/(\S+)/);
        browser.wire = await Wire.to(`ws://${browser.program.address}/session`);
        await browser.wire.call("session.new", { capabilities: {} });
        const { contexts } = await browser.wire.call("browsingContext.getTree");
        browser.context = contexts[0].context;
        return browser;
    }

    async open(address) {
        await this.wire.call("browsingContext.navigate", { context: this.context, url: "about:blank", wait: "complete" });
        await this.wire.call("browsingContext.navigate", { context: this.context, url: address, wait: "complete" });
    }

    async run(body) {
        const { result, exceptionDetails } = await this.wire.call("script.evaluate", {
            expression: asPromise(body), awaitPromise: true, target: { context: this.context },
        });
        if (exceptionDetails) throw new Error(JSON.stringify(exceptionDetails));
        return JSON.parse(result.value);
    }

    // A theme is a setting with which Firefox begins.
    async look(width, height, theme) {
        if (theme !== this.theme) {
            await this.end();
            Object.assign(this, await Firefox.start(theme));
        }
        await this.wire.call("browsingContext.setViewport", { context: this.context, viewport: { width, height } });
    }

    async picture(file) {
        await pause(300);
        const { data } = await this.wire.call("browsingContext.captureScreenshot", { context: this.context });
        fs.writeFileSync(file, Buffer.from(data, "base64"));
    }

    async press(key) {
        const value = { Tab: "\uE004", ArrowRight: "\uE014", Enter: "\uE007" }[key];
        const actions = [{ type: "key", id: "keys", actions: [{ type: "keyDown", value }, { type: "keyUp", value }] }];
        await this.wire.call("input.performActions", { context: this.context, actions });
    }

    end() {
        return this.program.end();
    }
}
