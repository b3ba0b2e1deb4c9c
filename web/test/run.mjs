// Tests the page in one browser: node run.mjs BROWSER PAGE PICTURES TABLES SCRIPTS.., where BROWSER is chromium or firefox, PAGE the folder of the page,
// PICTURES a folder for pictures, TABLES one of tests with tables, and each of SCRIPTS a folder of scripts with their replies. Prints a line for each
// test; what is wrong goes to standard error, and then the status is 1.
import fs from "node:fs";
import http from "node:http";
import os from "node:os";
import path from "node:path";
import process from "node:process";
import { pathToFileURL } from "node:url";
import zlib from "node:zlib";
import { Chromium, Firefox } from "./browsers.mjs";
import { FAULTS } from "./faults.mjs";
import { compareScripts } from "./scripts.mjs";
import { compareTables } from "./tables.mjs";

const MOST_MILLISECONDS = 500;
const [chosen, folder, pictures, tables, ...scripts] = process.argv.slice(2);
const Browser = { chromium: Chromium, firefox: Firefox }[chosen];
const addressIn = place => pathToFileURL(path.join(place, "index.html")).href;
const address = addressIn(folder);
let failed = false;

function tell(what, isFine, more = "") {
    if (isFine) {
        console.log(`${Browser.name}: ${what}: passed${more && ` (${more})`}`);
        return;
    }
    failed = true;
    console.error(`${Browser.name}: ${what}: failed${more && `: ${more}`}`);
}

const inWords = value => JSON.stringify(value);
const isShown = `
    while (typeof page === "undefined" || !page.answer) {
        if (performance.now() > 30000) throw new Error("the page shows nothing");
        await new Promise(resolve => setTimeout(resolve, 5));
    }`;

// Opens the page anew, and waits until it shows something.
async function open(browser, link = "") {
    await browser.open(address + link);
    await browser.run(`${isShown} return true;`);
}

const ask = (browser, question) => browser.run(`return page.engine.ask(${inWords(question)});`);

// Lets the page show a state, made of the first example's.
const show = (browser, state) => browser.run(`
    await page.load({ ...EXAMPLES[0], open: 0, subject: "template", name: "page.html", data: "{}", ...${inWords(state)} });
    return page.answer;`);
const showText = (browser, text, more = {}) => show(browser, { templates: [{ name: "page.html", text }], ...more });
const isAlive = async browser => (await showText(browser, "{{ 6 * 7 }}")).text === "42";

async function testOpening(browser) {
    const times = [];
    for (let turn = 0; turn < 3; turn++) {
        await open(browser);
        times.push(await browser.run("return page.firstShown;"));
    }
    const least = Math.round(Math.min(...times));
    tell(`first rendering within ${MOST_MILLISECONDS} ms`, least <= MOST_MILLISECONDS, `${times.map(Math.round).join(", ")} ms`);
}

async function testExamples(browser) {
    const answers = await browser.run(`
        const answers = [];
        for (const example of EXAMPLES) {
            await page.load(example);
            answers.push({ title: example.title, ...page.answer, names: document.getElementById("variables").textContent });
        }
        return answers;`);
    for (const { title, text, fault, names } of answers) {
        const isFault = title === "A fault";
        const isFine = isFault ? fault?.kind === "RenderingError" && fault.file === "post.html" && fault.line === 4 : text?.length > 100;
        tell(`example "${title}"`, isFine, isFine ? `variables ${names}` : inWords({ text, fault }));
    }
}

async function testFaults(browser) {
    const others = [];
    for (const { templates, kind, place, name = "page.html", subject = "template", json = '{"list": [], "a": 1}' } of FAULTS) {
        const question = { templates, subject, name, json, autoescape: true, decimals: false, seconds: 0 };
        const { fault, ...rest } = await ask(browser, question);
        const [line, column] = place;
        if (fault?.kind !== kind || fault.line !== line || fault.column !== column || !fault.words) {
            others.push({ texts: templates.map(({ text }) => text), wanted: [kind, line, column], fault, rest });
        }
    }
    tell(`${FAULTS.length} faults`, others.length === 0, others.map(inWords).join("\n"));
}

// A fault is marked at its place, and the button leads there.
async function testMark(browser) {
    await showText(browser, "Dear\n{{ nobody }},\nbye", { templates: [
        { name: "other.html", text: "a" }, { name: "page.html", text: "Dear\nÜ {{ nobody }},\nbye" },
    ] });
    const told = await browser.run(`
        document.getElementById("go").click();
        const area = document.getElementById("text");
        return {
            tab: document.querySelector("[aria-selected=true]").textContent, mark: document.querySelector("mark").textContent,
            chosen: area.value.slice(area.selectionStart, area.selectionEnd), line: document.querySelector(".numbers .faulty").textContent.trim(),
            note: document.querySelector(".sheet span").textContent, focus: document.activeElement.id,
        };`);
    const isFine = told.tab === "page.html" && told.mark === "nobody" && told.chosen === "nobody" && told.line === "2" && told.focus === "text"
        && told.note.includes("nobody");
    tell("a fault is marked at its place", isFine, isFine ? told.note.trim() : inWords(told));
}

async function testLimits(browser) {
    await open(browser);
    const begun = Date.now(), late = await showText(browser, LACKING.time), took = Date.now() - begun;
    tell("two nested loops of 100,000 are ended", late.lacks === "time" && took < 12000, inWords({ lacks: late.lacks, took }));
    tell("the page goes on after them", await isAlive(browser));
    const doubled = await showText(browser, LACKING.memory);
    tell("a text that is doubled 40 times", doubled.lacks === "memory", inWords(doubled).slice(0, 200));
    tell("the page goes on after it", await isAlive(browser));
    const deep = await showText(browser, LACKING.stack);
    tell("a value of 100,000 levels", deep.lacks === "stack", inWords(deep).slice(0, 200));
    tell("the page goes on after it", await isAlive(browser));
    tell("none of this needs the second script", !(await isWholeThere(browser)));
}

// Templates that reach what the first module leaves out, with what they render to.
const WHOLE = [
    ['{{ "a1b22" | regex_replace(pattern="[0-9]+", rep="#") }}', "a#b#"],
    ['{{ "Bergen" is matching(pat="^B.*n$") }}', "true"],
    ['{{ "Crème Brûlée!" | slugify }}', "creme-brulee"],
    ['{{ "2024-05-31T10:20:30Z" | date(format="%d %B %Y") }}', "31 May 2024"],
    ['{{ 86400 | date }}', "1970-01-02"],
    ['{{ "don\'t stop-me" | title | safe }}', "Don't Stop-Me"],
    ['{{ "abc" | md5 }}', "900150983cd24fb0d6963f7d28e17f72"],
    ['{{ "abc" | sha256 }}', "ba7816bf8f01cfea414140de5dae2223b00361a396177a9cb410ff61f20015ad"],
    ['{{ "abc" | b64encode }} {{ "YWJj" | b64decode }}', "YWJj abc"],
];
// Templates of which the first module has all, though they speak of such things.
const FIRST = [
    ['{{ "straße" | upper }} {{ "ÅSE" | capitalize }}', "STRASSE Åse"],
    ['{% for c in "e\u0301🇳🇴" %}{{ c }},{% endfor %}', "e\u0301,🇳🇴,"],
    ['{{ "日本語" | truncate(length=2) }}', "日本…"],
    ['{{ "a b" | urlencode }} {{ 1500 | filesizeformat }}', "a%20b 1.50 kB"],
    ["{{ [1, none] | json_encode }}", "[1,null]"],
    ['{% if false %}{{ "a" is matching(pat="a") }}{% endif %}', ""],
];
const LACKING = {
    time: "{% for i in range(end=100000) %}{% for j in range(end=100000) %}{% endfor %}{% endfor %}",
    memory: `{% set a = "ab" %}${"{% set a = a ~ a %}".repeat(40)}{{ a }}`,
    stack: "{% set a = [] %}{% for i in range(end=100000) %}{% set_global a = [a] %}{% endfor %}{{ a }}",
};

const isWholeThere = browser => browser.run(`return page.engine.whole !== null || document.querySelector("script[src='whole.js']") !== null;`);

// What is wrong with the answers to these templates.
async function wrongAnswers(browser, rows) {
    const others = [];
    for (const [text, wanted] of rows) {
        const answer = await showText(browser, text);
        if (answer.text !== wanted) others.push({ text, wanted, answer });
    }
    return others;
}

// The whole module is loaded by the first question that needs it, and by no other; and what it lacks is told as before.
async function testWholeModule(browser) {
    await open(browser);
    const told = await wrongAnswers(browser, FIRST);
    tell(`${FIRST.length} templates that need no second script`, told.length === 0 && !(await isWholeThere(browser)), told.map(inWords).join("\n"));
    for (const row of WHOLE) {
        await open(browser);
        const isThere = await isWholeThere(browser), others = await wrongAnswers(browser, [row]);
        const isFine = !isThere && others.length === 0 && await isWholeThere(browser);
        tell(`the second script answers ${row[0]}`, isFine && await isAlive(browser), others.map(inWords).join("\n"));
    }
    const again = await wrongAnswers(browser, [...WHOLE, ...FIRST]);
    tell("the whole module answers all of these", again.length === 0, again.map(inWords).join("\n"));
    for (const [lack, text] of Object.entries(LACKING)) {
        const { lacks } = await showText(browser, text);
        tell(`the whole module lacks ${lack}, and the page goes on`, lacks === lack && await isAlive(browser), lacks ?? "");
    }
    const behind = await wrongAnswers(browser, WHOLE);
    tell("it is still the whole module after that", behind.length === 0, behind.map(inWords).join("\n"));
}

// The limits count for each question alone, and so they do where the second script is loaded in between.
async function testLimitsWithSecondScript(browser) {
    const needs = '{{ "a" is matching(pat="a") }}';
    for (const [lack, text] of Object.entries(LACKING)) {
        await open(browser);
        const { lacks } = await showText(browser, needs + text);
        tell(`a template that needs the second script, and lacks ${lack}`, lacks === lack && await isWholeThere(browser) && await isAlive(browser), lacks ?? "");
    }
    await open(browser);
    const answers = await browser.run(`
        const ask = text => page.engine.ask({ templates: [{ name: "a", text }], subject: "template", name: "a", json: "{}", autoescape: true, decimals: false, seconds: 0 });
        return await Promise.all(${inWords([needs, "{{ 1 }}", needs + needs])}.map(ask));`);
    tell("three questions at once, of which two need it", answers.map(({ text }) => text).join() === "true,1,truetrue", inWords(answers));
}

// A server of this machine that counts who comes to it, with a request or without one.
async function countingServer() {
    const server = http.createServer((_, reply) => reply.end());
    server.count = 0;
    server.on("connection", () => (server.count += 1));
    await new Promise(resolve => server.listen(0, "127.0.0.1", resolve));
    server.place = `http://127.0.0.1:${server.address().port}`;
    return server;
}

// Data with scripts, in a template that marks it safe, run nothing in the preview, and fetch nothing.
async function testHostileData(browser) {
    const server = await countingServer(), there = server.place;
    const script = `<script>parent.postMessage("ran", "*")</script><img src="x" onerror="parent.postMessage('ran', '*')">`;
    const fetching = `<link rel="stylesheet" href="${there}/a.css"><img src="${there}/b.png"><iframe src="${there}/c.html"></iframe>`
        + `<meta http-equiv="refresh" content="0;url=${there}/d.html">`;
    const ahead = `<link rel="preconnect" href="${there}">`, aheadWithin = `<iframe srcdoc='${ahead}'></iframe>`
        + `<div><template shadowrootmode="open">${ahead}</template></div>`;
    await open(browser);
    await browser.run(`addEventListener("message", ({ data }) => (window.ran = data)); return true;`);
    const answer = await showText(browser, "{{ a | safe }}", { data: inWords({ a: script + fetching + ahead + aheadWithin }) });
    const ran = await browser.run(`
        await new Promise(resolve => setTimeout(resolve, 1000));
        return window.ran ?? null;`);
    server.close();
    tell("an unsafe script in the data does not run in the preview", answer.text?.startsWith(script) && ran === null, ran ?? "");
    tell("the preview fetches nothing, and connects to nothing", server.count === 0, server.count ? `${server.count} connections` : "");
    const escaped = await showText(browser, "{{ a }}", { data: inWords({ a: script }) });
    tell("the same data is escaped where it is not marked safe", escaped.text?.startsWith("&lt;script&gt;"));
}

async function testLink(browser) {
    const text = `{% component Hello(name: string) %}Hello, {{ name }}!{% endcomponent %}`;
    const state = { templates: [{ name: "a b.html", text: "Ünïcode 東京" }, { name: "hello.html", text }], open: 1, subject: "component", name: "Hello" };
    const before = await show(browser, { ...state, data: '{"name": "<Ines>"}', autoescape: true });
    const link = await browser.run("await page.writeLink(); return location.hash;");
    await open(browser, link);
    const told = await browser.run(`
        return { answer: page.answer.text, open: page.state.open, names: page.state.templates.map(({ name }) => name), text: page.state.templates[0].text,
            subject: document.getElementById("subject").value };`);
    const isFine = before.text === "Hello, &lt;Ines&gt;!" && told.answer === before.text && told.open === 1 && told.names[0] === "a b.html"
        && told.text === "Ünïcode 東京" && told.subject === "component Hello";
    tell("the link of a state, opened anew", isFine, isFine ? `${link.length} letters` : inWords({ before, told }));
}

const linkOf = text => `#1.${zlib.deflateRawSync(text).toString("base64").replaceAll("+", "-").replaceAll("/", "_").replaceAll("=", "")}`;
const stateOf = text => `{"templates": [{"name": "a", "text": ${inWords(text)}}], "data": "{}", "name": "a"}`;

// Links from anyone: what cannot be read is told, and so is what would unpack to too much; and a text is taken as the editor has it.
async function testHostileLinks(browser) {
    const others = [], trouble = () => browser.run(`return document.getElementById("name-trouble").textContent;`);
    for (const link of ["#1.nonsense", "#2.abc", "#top", "#1.%E0", linkOf("{"), linkOf("null"), linkOf("{}"), linkOf(stateOf("a".repeat(50_000_000)))]) {
        const begun = Date.now();
        await open(browser, link);
        if (await trouble() !== "The link cannot be read." || Date.now() - begun > 5000 || !(await isAlive(browser))) others.push(link.slice(0, 40));
    }
    tell("links that cannot be read", others.length === 0, others.join(" "));
    await open(browser, linkOf(stateOf("one\r\ntwo\rthree {{ nobody }}")));
    const mark = await browser.run(`return document.querySelector("mark")?.textContent ?? null;`);
    tell("a fault behind ends of lines of other systems is marked at its place", mark === "nobody", mark ?? "");
}

// A change leaves no step for the browser's button Back. An example does, and leads back to what stood there before.
async function testBack(browser) {
    await open(browser);
    const told = await browser.run(`
        const pause = time => new Promise(resolve => setTimeout(resolve, time)), steps = [history.length];
        const area = document.getElementById("text"), examples = document.getElementById("examples");
        for (const letter of "abc") {
            area.value += letter;
            area.dispatchEvent(new Event("input"));
            await page.ask();
            await pause(200);
        }
        steps.push(history.length);
        examples.value = 1;
        examples.dispatchEvent(new Event("change"));
        await pause(500);
        steps.push(history.length);
        const example = page.state.name;
        history.back();
        await pause(1000);
        return { steps, example, back: page.state.templates[0].text.slice(-3) };`);
    const [first, changed, loaded] = told.steps;
    const isFine = changed === first && loaded === first + 1 && told.example === "mail.txt" && told.back === "abc";
    tell("the browser's button Back", isFine, isFine ? "" : inWords(told));
}

// Where parts of the page are missing or refused, it says so.
async function testFailing(browser) {
    const place = fs.mkdtempSync(path.join(os.tmpdir(), "page-"));
    const hide = name => copy => fs.rmSync(path.join(copy, name)), edit = (from, to) => copy => {
        const file = path.join(copy, "index.html"), text = fs.readFileSync(file, "utf8");
        fs.writeFileSync(file, text.replace(from, to));
    };
    const others = [], needs = WHOLE[0][0];
    for (const [what, change, text, goesOn] of [
        ["engine.js is missing", hide("engine.js"), "a", false], ["no WebAssembly", edit(" 'wasm-unsafe-eval'", ""), "a", false],
        ["no Worker", edit("worker-src blob:", "worker-src 'none'"), "a", false], ["whole.js is missing", hide("whole.js"), needs, true],
        ["a folder of any name", () => {}, needs, true],
    ]) {
        const copy = path.join(place, `${what} 'ü' %20 #x ?`);
        fs.cpSync(folder, copy, { recursive: true });
        change(copy);
        await browser.open(addressIn(copy));
        await browser.run(`${isShown} return true;`);
        const { failed: word, text: made } = await showText(browser, text);
        const isTold = await browser.run(`return document.getElementById("kind").textContent === "The engine failed" && !document.getElementById("report").hidden;`);
        if ((word ? !isTold : made !== WHOLE[0][1]) || goesOn !== await isAlive(browser)) others.push({ what, word, made });
    }
    fs.rmSync(place, { recursive: true });
    tell("what is missing is told", others.length === 0, others.map(inWords).join("\n"));
}

// Long texts do not stop the page.
async function testLongTexts(browser) {
    await open(browser);
    const lines = await browser.run(`
        await page.load({ ...EXAMPLES[0], templates: [{ name: "page.html", text: "{{ 1 }}\\n".repeat(150000) + "{{ nobody }}" }] });
        return [page.answer.fault?.line, document.querySelector(".numbers").textContent.length, document.querySelector(".numbers .faulty").textContent];`);
    tell("a template of 150,001 lines", inWords(lines) === "[150001,938902,\"150001\\n\"]", inWords(lines));
    const shown = await browser.run(`
        const text = "{% for i in range(end=300) %}{% for j in range(end=10000) %}0123456789{% endfor %}{% endfor %}";
        await page.load({ ...EXAMPLES[0], templates: [{ name: "page.html", text }] });
        return [page.answer.text?.length, document.getElementById("output").textContent.length, document.getElementById("output-name").textContent];`);
    const isFine = shown[0] === 30_000_000 && shown[1] === 1_000_000 && shown[2].endsWith("of 30,000,000 characters");
    tell("a text of 30,000,000 characters is shown in part", isFine && await isAlive(browser), inWords(shown));
}

// Where the data cannot be read, the report leads to the place in it.
async function testData(browser) {
    await showText(browser, "a", { data: '{\n  "ü": x\n}' });
    const told = await browser.run(`
        document.getElementById("go").click();
        const area = document.getElementById("data");
        return [document.getElementById("kind").textContent, document.activeElement.id, area.value.slice(area.selectionStart, area.selectionEnd)];`);
    tell("data that cannot be read", inWords(told) === '["The data cannot be read","data","x"]', inWords(told));
}

// Each part of the page is reached by the keyboard, and the arrows step through the tabs.
async function testKeyboard(browser) {
    await open(browser);
    await browser.run("document.body.focus(); return true;");
    const reached = new Set();
    for (let turn = 0; turn < 24; turn++) {
        await browser.press("Tab");
        const id = await browser.run(`const it = document.activeElement; return it.id || it.getAttribute("role") || it.tagName;`);
        reached.add(id);
        if (id === "tab") {
            await browser.press("ArrowRight");
            reached.add(await browser.run(`return document.activeElement.textContent;`));
        }
    }
    const wanted = ["examples", "link", "layout.html", "add", "name", "remove", "text", "data", "subject", "autoescape", "decimals", "output"];
    const missing = wanted.filter(id => !reached.has(id));
    tell("each part is reached by the keyboard", missing.length === 0, missing.length ? `not ${missing.join(", ")}, but ${[...reached].join(", ")}` : "");
}

// Templates are added, renamed and removed.
async function testTabs(browser) {
    await open(browser);
    const told = await browser.run(`
        const element = id => document.getElementById(id), type = (id, value) => {
            element(id).value = value;
            element(id).dispatchEvent(new Event("input"));
        };
        element("add").click();
        type("name", "layout.html");
        const trouble = element("name-trouble").textContent;
        type("name", "new.txt");
        type("text", "{{ harbour.name }}");
        element("subject").value = "template new.txt";
        element("subject").dispatchEvent(new Event("change"));
        await page.ask();
        const added = page.answer.text;
        element("remove").click();
        await page.ask();
        return { trouble, added, tabs: element("tabs").textContent, subject: element("subject").value, fault: page.answer.fault ?? null };`);
    const isFine = told.trouble && told.added === "Oslo & Drammen" && !told.tabs.includes("new.txt") && told.subject === "template page.html" && !told.fault;
    tell("templates are added, named and removed", isFine, isFine ? "" : inWords(told));
    const component = await show(browser, {
        templates: [{ name: "page.html", text: "a" }, { name: "Note", text: "" }, { name: "c", text: "{% component Note() %}b{% endcomponent %}" }],
        subject: "component", name: "Note", open: 1,
    });
    const after = await browser.run(`
        document.getElementById("remove").click();
        await page.ask();
        return page.answer.text;`);
    tell("a template with the name of the component that is shown is removed", component.text === "b" && after === "b", after ?? "");
}

async function takePictures(browser) {
    const views = [
        ["light", 1240, 800, "light", 0], ["dark", 1240, 800, "dark", 3], ["narrow", 400, 900, "light", 1], ["fault", 1240, 800, "light", 4],
        // The picture of the README: a fault, while the output of before is still there.
        ["edited", 1240, 740, "light", 0],
    ];
    const others = [];
    for (const [name, width, height, theme, example] of views) {
        await browser.look(width, height, theme);
        await open(browser);
        if (await browser.run("return matchMedia('(prefers-color-scheme: dark)').matches;") !== (theme === "dark")) others.push(`${name} is not ${theme}`);
        await browser.run(`await page.load(EXAMPLES[${example}]); return true;`);
        if (name === "edited") await browser.run(`
            const area = document.getElementById("text");
            area.value = area.value.replace("tide.height }}", "tide.heigth }}");
            area.dispatchEvent(new Event("input"));
            await page.ask();
            return true;`);
        if (await browser.run("return document.documentElement.scrollWidth > innerWidth;")) others.push(`${name} is too wide`);
        await browser.picture(path.join(pictures, `${chosen}-${name}.png`));
    }
    tell("pictures, none wider than its window, and one dark", others.length === 0, others.join(", ") || pictures);
}

async function testWithScripts(browser, scriptFolder) {
    const told = await compareScripts(scriptFolder, question => ask(browser, question));
    const what = `${path.relative(process.cwd(), scriptFolder)}: ${told.scripts} scripts, ${told.whole} of them whole, with ${told.replies} replies`;
    tell(what, told.scripts > 0 && told.others.length === 0, told.others.map(inWords).join("\n"));
}

async function testWithTables(browser) {
    const told = await compareTables(tables, question => ask(browser, question));
    tell(`${told.tables} tables of crates/test_engine: ${told.lines} lines`, told.lines > 0 && told.others.length === 0, told.others.map(inWords).join("\n"));
}

const browser = await Browser.start();
try {
    for (const test of [
        // Steps back early: Firefox counts no more than fifty.
        testOpening, testBack, testExamples, testFaults, testMark, testLimits, testWholeModule, testLimitsWithSecondScript, testHostileData, testLink,
        testHostileLinks, testFailing, testLongTexts, testData, testKeyboard, testTabs, takePictures,
    ]) {
        try {
            await test(browser);
        } catch (error) {
            tell(test.name, false, error.stack);
        }
    }
    await open(browser);
    await testWithTables(browser);
    for (const scriptFolder of scripts) await testWithScripts(browser, scriptFolder);
    tell("no table and no script needs the second script", !(await isWholeThere(browser)));
    await wrongAnswers(browser, WHOLE);
    tell("the same of the whole module", await isWholeThere(browser));
    await testWithTables(browser);
    for (const scriptFolder of scripts) await testWithScripts(browser, scriptFolder);
} finally {
    await browser.end();
}
process.exit(failed ? 1 : 0);
