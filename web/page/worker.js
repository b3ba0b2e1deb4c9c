"use strict";

// Runs in a Worker, which is made of this function's own text: a page that is opened from a file may start no other.
// It is sent the compiled module, tells that it is ready, and answers each question from an instance of its own.
function engineWorker() {
    // What the engine's crate tera_page says: the numbers of subjects, of statuses and of kinds of error.
    const SUBJECTS = { template: 0, component: 1, variables: 2, components: 3 };
    const COPIED = 0, REFUSED_MEMORY = 2, TOO_SMALL = 4;
    const KINDS = [
        null, "SyntaxError", "Message", "RenderingError", "CircularExtend", "CircularInclude", "MissingParent",
        "TemplateNotFound", "ComponentNotFound", "InvalidArgument", "MissingArgument", "OutOfMemory",
    ];
    const QUESTION_BYTES = 24, SIZE_BYTES = 16, ANSWER_BYTES = 64;
    const utf8 = new TextEncoder();
    const text = new TextDecoder();
    let module;

    class OutOfMemory extends Error {}
    class LacksPart extends Error {}

    class Call {
        constructor() {
            try {
                this.engine = new WebAssembly.Instance(module).exports;
            } catch {
                throw new OutOfMemory();
            }
        }

        place(bytes) {
            const at = this.engine.page_alloc(BigInt(bytes));
            if (at === 0n) throw new OutOfMemory();
            return at;
        }

        view(at, bytes) {
            return new Uint8Array(this.engine.memory.buffer, Number(at), Number(bytes));
        }

        // Bytes as the engine takes them: a place and a length.
        put(bytes) {
            const at = this.place(bytes.length);
            this.view(at, bytes.length).set(bytes);
            return [at, BigInt(bytes.length)];
        }

        // The engine's own call. It traps where it comes to a function that this module leaves out, too, and then says so.
        ask(...given) {
            try {
                this.engine.tera_page(...given);
            } catch (error) {
                throw this.engine.page_lacks_part() ? new LacksPart() : error;
            }
        }

        question({ subject, autoescape, decimals, seconds }) {
            const at = this.place(QUESTION_BYTES);
            const numbers = new DataView(this.engine.memory.buffer, Number(at), QUESTION_BYTES);
            numbers.setUint32(0, SUBJECTS[subject], true);
            numbers.setUint32(4, autoescape ? 1 : 0, true);
            numbers.setUint32(8, decimals ? 1 : 0, true);
            numbers.setBigInt64(16, BigInt(seconds), true);
            return at;
        }

        templates(templates) {
            const pieces = templates.flatMap(({ name, text }) => [utf8.encode(name), utf8.encode(text)]);
            const bytes = new Uint8Array(pieces.reduce((sum, piece) => sum + piece.length, 0));
            let end = 0;
            for (const piece of pieces) {
                bytes.set(piece, end);
                end += piece.length;
            }
            const given = this.put(bytes);
            const sizes = BigUint64Array.from(pieces, piece => BigInt(piece.length));
            const [at] = this.put(new Uint8Array(sizes.buffer));
            return [...given, at, BigInt(sizes.byteLength / SIZE_BYTES)];
        }

        answer(at, room, templates) {
            const numbers = new DataView(this.engine.memory.buffer, Number(at), ANSWER_BYTES);
            const word = place => Number(numbers.getBigUint64(place, true));
            const answer = { status: numbers.getUint32(0, true), size: word(8) };
            if (answer.status === COPIED) answer.text = text.decode(this.view(room, answer.size));
            const kind = numbers.getUint32(16, true);
            if (kind === 0) return answer;
            answer.fault = { kind: KINDS[kind] };
            if (numbers.getUint32(20, true) !== 0) {
                Object.assign(answer.fault, { start: word(24), end: word(32), line: word(40), column: word(48) });
                answer.fault.file = templates[word(56)]?.name;
            }
            return answer;
        }
    }

    function answerIn(room, question) {
        const call = new Call();
        const at = call.place(ANSWER_BYTES), out = call.place(room);
        const given = [
            call.question(question), ...call.templates(question.templates),
            ...call.put(utf8.encode(question.name)), ...call.put(utf8.encode(question.json)),
        ];
        call.ask(at, ...given, out, BigInt(room));
        const answer = call.answer(at, out, question.templates);
        return answer.status === TOO_SMALL ? answerIn(answer.size, question) : answer;
    }

    // A text or a fault; or what the engine had too little of, `memory` or `stack`; or that this module lacks a `part` of it.
    function answerTo(question) {
        try {
            const { status, text, fault } = answerIn(65536, question);
            if (status === REFUSED_MEMORY || fault?.kind === "OutOfMemory") return { lacks: "memory" };
            return fault ? { fault: { ...fault, words: text } } : { text };
        } catch (error) {
            if (error instanceof OutOfMemory) return { lacks: "memory" };
            if (error instanceof LacksPart) return { lacks: "part" };
            // The engine's own functions trap nowhere, so any other trap says that they came to the end of a stack.
            const isDeep = error instanceof RangeError || error.name === "InternalError" || error instanceof WebAssembly.RuntimeError;
            return isDeep ? { lacks: "stack" } : { failed: String(error) };
        }
    }

    onmessage = ({ data }) => {
        if (data instanceof WebAssembly.Module) {
            module = data;
            postMessage("ready");
            return;
        }
        const begun = performance.now();
        const answer = answerTo(data.question);
        postMessage({ number: data.number, answer: { ...answer, took: performance.now() - begun } });
    };
}
