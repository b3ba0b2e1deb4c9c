"use strict";

// What the page shows can be written into its link, and read from there.
const STATE_FORM = "1.";
// No browser opens a link that is much longer, and a short one that unpacks to much more would stop the page, whoever sent it.
const MOST_LETTERS = 1_000_000, MOST_BYTES = 4_000_000;

function checkSize(size, most) {
    if (size > most) throw new Error("this is too much for a link");
}

async function through(stream, bytes) {
    const reader = new Blob([bytes]).stream().pipeThrough(stream).getReader(), pieces = [];
    for (let size = 0; ;) {
        const { done, value } = await reader.read();
        if (done) return new Uint8Array(await new Blob(pieces).arrayBuffer());
        checkSize((size += value.length), MOST_BYTES);
        pieces.push(value);
    }
}

// The state as letters that a link may have, and back.
async function written(state) {
    const bytes = new TextEncoder().encode(JSON.stringify(state));
    checkSize(bytes.length, MOST_BYTES);
    const packed = await through(new CompressionStream("deflate-raw"), bytes);
    const letters = btoa(Array.from(packed, byte => String.fromCharCode(byte)).join(""));
    checkSize(letters.length, MOST_LETTERS);
    return STATE_FORM + letters.replaceAll("+", "-").replaceAll("/", "_").replaceAll("=", "");
}

async function read(link) {
    if (!link.startsWith(STATE_FORM)) throw new Error("this link is of another form");
    const letters = link.slice(STATE_FORM.length).replaceAll("-", "+").replaceAll("_", "/");
    const bytes = await through(new DecompressionStream("deflate-raw"), bytesOf(letters));
    return checked(JSON.parse(new TextDecoder("utf-8", { fatal: true }).decode(bytes)));
}

// A text as a text area has it, in which the places of faults are counted, and a name as a field of one line has it.
const textOf = value => String(value).replace(/\r\n?/g, "\n");
const nameOf = value => String(value).replace(/[\r\n]/g, "");

// A link may come from anyone, so each part of its state is taken as what it has to be.
function checked(state) {
    const templates = state.templates.map(({ name, text }) => ({ name: nameOf(name), text: textOf(text) }));
    if (templates.length === 0 || new Set(templates.map(({ name }) => name)).size < templates.length) {
        throw new Error("this link has no templates, or two of one name");
    }
    return {
        templates,
        data: textOf(state.data),
        subject: state.subject === "component" ? "component" : "template",
        name: nameOf(state.name),
        autoescape: Boolean(state.autoescape),
        decimals: Boolean(state.decimals),
        open: Math.min(Math.max(0, Math.trunc(Number(state.open)) || 0), templates.length - 1),
    };
}
