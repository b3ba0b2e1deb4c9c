// The tables of crates/test_engine as questions to the page's engine. A line of a table is `INPUT => TEXT`, `INPUT !! START END` where the input faults
// at these bytes, `INPUT !! syntax` or `INPUT !! message`. The tests of that crate give each line to the native engine.
import fs from "node:fs";
import path from "node:path";

// What the lines read, but for what JSON cannot say: a safe text, an undefined value and bytes.
const DATA = { text: "<b>", html: "<script>", name: "world" };
const UNSAID = /\b(hidden|bytes)\b|(?<!\|\s*)\bsafe\b|\{%-?\s*(extends|block|component)\b/;

// The tables of a file that are given to an engine of their own, each with whether texts are escaped.
function tablesIn(source) {
    const texts = new Map(Array.from(source.matchAll(/const (\w+): &str = r#?"([^]*?)"#?;/g), ([, name, text]) => [name, text]));
    const alone = source.matchAll(/\bwrong_line\([^,()]*(?:\(\))?, (true|false), (\w+)\)/g);
    const lists = source.matchAll(/first_wrong_line\(([^;]*);/g);
    const listed = Array.from(lists, ([, list]) => Array.from(list.matchAll(/\((true|false), (\w+)\)/g))).flat();
    return [...alone, ...listed].map(([, escape, name]) => ({ autoescape: escape === "true", lines: (texts.get(name) ?? "").split("\n") }));
}

function isAsWanted({ text, fault }, want) {
    if (want.text !== undefined) return text === want.text;
    if (want.fault === "syntax") return fault?.kind === "SyntaxError";
    if (want.fault === "message") return fault?.kind === "Message";
    return fault?.kind === "RenderingError" && `${fault.start} ${fault.end}` === want.fault;
}

function wantOf(line) {
    const told = /^([^]*?) => ?([^]*)$/.exec(`${line} `);
    if (told && line.includes(" =>")) return { input: told[1], text: told[2].slice(0, -1) };
    const place = line.indexOf(" !! ");
    return place < 0 ? null : { input: line.slice(0, place), fault: line.slice(place + 4) };
}

export async function compareTables(folder, ask) {
    const told = { tables: 0, lines: 0, others: [] };
    for (const name of fs.readdirSync(folder).sort()) {
        for (const { autoescape, lines } of tablesIn(fs.readFileSync(path.join(folder, name), "utf8"))) {
            told.tables += 1;
            for (const line of lines) {
                const want = wantOf(line), file = autoescape ? "line.html" : "line.txt";
                if (!want || want.fault === "memory" || UNSAID.test(line)) continue;
                told.lines += 1;
                const answer = await ask({
                    templates: [{ name: file, text: want.input }], subject: "template", name: file, json: JSON.stringify(DATA), autoescape: true,
                    decimals: false, seconds: 0,
                });
                if (!isAsWanted(answer, want)) told.others.push({ name, line, answer });
            }
        }
    }
    return told;
}
