// Scripts of `tera_run` as questions to the page's engine: each command that can be said as a question, and what is replied.
import fs from "node:fs";
import path from "node:path";

const ONE_OFF = "__tera_one_off";

// The commands of a script, with their fields and bodies.
function commandsOf(script) {
    const lines = script.replace(/\n$/, "").split("\n"), commands = [];
    for (let at = 0; at < lines.length; at++) {
        if (lines[at] === "") continue;
        const [, word, ...fields] = lines[at].split(" "), command = { word, fields };
        if (["text", "safe", "template", "str"].includes(word)) {
            const end = lines.indexOf("@@ end", at + 1);
            command.body = lines.slice(at + 1, end).join("\n");
            at = end;
        }
        commands.push(command);
    }
    return commands;
}

function isComponentWithImplicits({ word, fields }) {
    return word === "component" && fields.length > 2;
}

// Whether a question can say it. A text beside the templates is asked as one more template, which may have what such a text may not.
function canAsk(command) {
    if (command.word === "str") return !/\{%-?\s*(extends|block|component)\b/.test(command.body);
    return ["text", "int", "template", "add", "render", "component"].includes(command.word) && !isComponentWithImplicits(command);
}

class Run {
    constructor(ask) {
        this.ask = ask;
        this.templates = new Map();
        this.waiting = [];
        this.data = [];
    }

    question(more) {
        return {
            templates: Array.from(this.templates, ([name, text]) => ({ name, text })),
            subject: "template", name: "", json: `{${this.data.join(", ")}}`, autoescape: true, decimals: false, seconds: 0, ...more,
        };
    }

    bind(name, value) {
        this.data.push(`${JSON.stringify(name)}: ${value}`);
        return "ok";
    }

    async add() {
        const added = new Map([...this.templates, ...this.waiting]);
        const question = this.question({ subject: "components" });
        question.templates = Array.from(added, ([name, text]) => ({ name, text }));
        this.waiting = [];
        const answer = await this.ask(question);
        if (answer.text === undefined) return replyOf(answer);
        this.templates = added;
        return "ok";
    }

    oneOff({ fields: [escape], body }) {
        const name = escape === "on" ? `${ONE_OFF}.html` : ONE_OFF, question = this.question({ name });
        question.templates.push({ name, text: body });
        return question;
    }

    async reply(command) {
        const { word, fields, body } = command;
        if (word === "text") return this.bind(fields[0], JSON.stringify(body));
        if (word === "int") return this.bind(fields[0], fields[1]);
        if (word === "add") return this.add();
        if (word === "template") {
            this.waiting.push([fields[0], body]);
            return "ok";
        }
        if (word === "str") return replyOf(await this.ask(this.oneOff(command)));
        const subject = word === "render" ? "template" : "component";
        const autoescape = subject === "template" || fields[1] === "on";
        return replyOf(await this.ask(this.question({ subject, name: fields[0], autoescape })));
    }
}

function replyOf({ text, fault, lacks, failed }) {
    if (text !== undefined) return text;
    if (!fault) return lacks === "memory" ? "fault OutOfMemory" : `lacks ${lacks ?? failed}`;
    const file = fault.file?.replace(`${ONE_OFF}.html`, ONE_OFF);
    return ["fault", fault.kind, ...(file === undefined ? [] : [file, fault.start, fault.end])].join(" ");
}

// The replies to a script's commands, each with the end of a line behind it.
async function repliesTo(commands, ask) {
    const run = new Run(ask);
    let replies = "";
    for (const command of commands) replies += `${await run.reply(command)}\n`;
    return replies;
}

// Runs the scripts of a folder, each of which lies beside its replies. Of a script only the commands before the first that no question says are
// run, and their replies begin those that lie there.
export async function compareScripts(folder, ask) {
    const told = { scripts: 0, whole: 0, replies: 0, others: [] };
    for (const name of fs.readdirSync(folder).sort()) {
        const file = path.join(folder, name);
        if (name.endsWith(".stdout") || !fs.existsSync(`${file}.stdout`)) continue;
        const commands = commandsOf(fs.readFileSync(file, "utf8")), end = commands.findIndex(command => !canAsk(command));
        const asked = end < 0 ? commands : commands.slice(0, end);
        if (!asked.some(({ word }) => ["str", "render", "component", "add"].includes(word))) continue;
        const wanted = fs.readFileSync(`${file}.stdout`, "utf8"), replies = await repliesTo(asked, ask);
        const isSame = end < 0 ? wanted === replies : wanted.startsWith(replies);
        told.scripts += 1;
        told.whole += end < 0 ? 1 : 0;
        told.replies += asked.length;
        if (!isSame) told.others.push({ name, wanted, replies });
    }
    return told;
}
