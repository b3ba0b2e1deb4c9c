"use strict";

// What base64 spells, which has _ and ' for + and /, and may have white space between its letters. Not every browser has the quick way.
function bytesOf(packed) {
    const spelled = packed.replaceAll("_", "+").replaceAll("'", "/");
    if (Uint8Array.fromBase64) return Uint8Array.fromBase64(spelled);
    const letters = atob(spelled), bytes = new Uint8Array(letters.length);
    for (let place = 0; place < letters.length; place++) bytes[place] = letters.charCodeAt(place);
    return bytes;
}

// Runs a script that lies beside the page, which it may do where the page is opened from a file, too.
function runScript(name) {
    const script = document.createElement("script");
    script.src = name;
    document.head.append(script);
    return new Promise((resolve, reject) => {
        script.onload = resolve;
        script.onerror = () => reject(new Error(`${name} cannot be loaded`));
    });
}

// The engine, as the page asks it.
class Engine {
    // A question that has no answer after so many milliseconds is given up.
    constructor(limit) {
        this.limit = limit;
        this.asked = 0;
        this.source = URL.createObjectURL(new Blob([`(${engineWorker})()`], { type: "text/javascript" }));
        this.module = Engine.compile(() => ENGINE);
        this.whole = null;
        this.start();
    }

    // A module is packed by gzip and written in base64.
    static async compile(packed) {
        const stream = new Blob([bytesOf(packed())]).stream().pipeThrough(new DecompressionStream("gzip"));
        return WebAssembly.compileStreaming(new Response(stream, { headers: { "Content-Type": "application/wasm" } }));
    }

    start() {
        this.isReady = this.startWorker();
        // Where a browser has no WebAssembly or starts no Worker, each question is answered so.
        this.isReady.catch(() => {});
    }

    async startWorker() {
        this.worker?.terminate();
        const { module } = this, worker = (this.worker = new Worker(this.source));
        const failing = new Promise((_, reject) => {
            worker.onerror = event => {
                event.preventDefault();
                reject(new Error(event.message || "no Worker can be started"));
            };
        });
        await Promise.race([failing, module.then(compiled => this.handOver(compiled, worker))]);
    }

    // Gives the Worker the module of which it is asked from here on.
    handOver(module, worker) {
        return new Promise(resolve => {
            worker.addEventListener("message", resolve, { once: true });
            worker.postMessage(module);
        });
    }

    // Takes the whole module in place of the first, which leaves out what few templates need.
    async takeWhole() {
        await runScript("whole.js");
        const module = await Engine.compile(() => WHOLE);
        this.module = Promise.resolve(module);
        this.isReady = this.handOver(module, this.worker);
    }

    // What the engine answers; or that it lacked `time`, and then its Worker is another from here on. Where a question reaches what the first
    // module leaves out, it is asked once more, of the whole one. The time to load that does not count.
    async ask(question) {
        const answer = await this.askOnce(question);
        if (answer.lacks !== "part") return answer;
        this.whole ??= this.takeWhole();
        try {
            await this.whole;
        } catch (error) {
            this.whole = null;
            return { failed: error.message };
        }
        return this.askOnce(question);
    }

    async askOnce(question) {
        try {
            await this.isReady;
        } catch (error) {
            this.start();
            return { failed: error.message };
        }
        const { worker } = this, number = ++this.asked;
        return new Promise(resolve => {
            const end = answer => {
                clearTimeout(late);
                worker.removeEventListener("message", hear);
                resolve(answer);
            };
            const restart = answer => {
                worker.terminate();
                if (this.worker === worker) this.start();
                end(answer);
            };
            const hear = ({ data }) => data.number === number && end(data.answer);
            const late = setTimeout(() => restart({ lacks: "time" }), this.limit);
            worker.addEventListener("message", hear);
            worker.onerror = event => {
                event.preventDefault();
                restart({ failed: event.message || "the Worker ended" });
            };
            worker.postMessage({ number, question });
        });
    }
}
