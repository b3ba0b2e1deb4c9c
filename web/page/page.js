"use strict";

// The page: what is written on the left is asked of the engine, and shown on the right.
const LIMIT = 3000;
// Of a longer text a browser would take many seconds to show all.
const MOST_SHOWN = 1_000_000;
const LACKS = {
    time: `This took more than ${LIMIT / 1000} seconds, so it was ended. The page goes on with your next change.`,
    memory: "This wants more memory than the page gives to a rendering, so it was ended. The page goes on.",
    stack: "This is too deep for a page's stack, so it was ended. The page goes on.",
};

class Page {
    constructor() {
        this.engine = new Engine(LIMIT);
        this.preview = new Preview(this.element("preview"));
        this.editor = new Editor(this.element("template"), text => {
            this.state.templates[this.state.open].text = text;
            this.fault = null;
            this.changed();
        });
        this.isAsking = this.isChanged = false;
        this.listen();
    }

    element(id) {
        return document.getElementById(id);
    }

    listen() {
        const on = (id, event, act) => this.element(id).addEventListener(event, act);
        const change = act => event => {
            act(event.target);
            this.changed();
        };
        on("data", "input", change(({ value }) => (this.state.data = value)));
        on("autoescape", "change", change(({ checked }) => (this.state.autoescape = checked)));
        on("decimals", "change", change(({ checked }) => (this.state.decimals = checked)));
        on("subject", "change", change(({ value }) => this.choose(value)));
        on("name", "input", ({ target }) => this.rename(target.value));
        on("add", "click", () => this.addTemplate());
        on("remove", "click", () => this.removeTemplate());
        on("tabs", "keydown", event => this.stepThroughTabs(event));
        on("go", "click", () => this.goToFault());
        on("link", "click", () => this.copyLink());
        on("examples", "change", ({ target }) => this.loadExample(EXAMPLES[Number(target.value)]));
        this.element("examples").replaceChildren(...EXAMPLES.map(({ title }, place) => new Option(title, place)));
        addEventListener("hashchange", () => location.hash !== this.hash && this.open());
    }

    // Begins with the state in the link, or with the first example. What stands there already stays where a link cannot be read.
    async open() {
        const letters = location.hash.slice(1), state = letters && await read(letters).catch(() => null);
        if (state) return this.load(state);
        if (!this.state) await this.load(EXAMPLES[0]);
        if (letters) this.element("name-trouble").textContent = "The link cannot be read.";
    }

    // The browser's button Back leads to what stood there before.
    async loadExample(example) {
        await this.writeLink();
        history.pushState(null, "", location.href);
        await Promise.all([this.load(example), this.writeLink()]);
    }

    async load(state) {
        const { title, ...rest } = structuredClone(state);
        this.state = rest;
        this.components = [];
        this.fault = null;
        this.element("examples").selectedIndex = EXAMPLES.findIndex(example => example.title === title);
        this.showOutput("");
        this.element("data").value = this.state.data;
        this.element("autoescape").checked = this.state.autoescape;
        this.element("decimals").checked = this.state.decimals;
        this.openTemplate(this.state.open);
        await this.changed();
    }

    // The templates.

    openTemplate(place) {
        this.state.open = place;
        const { name, text } = this.state.templates[place];
        this.editor.show(text);
        this.element("name").value = name;
        this.element("name-trouble").textContent = "";
        this.element("remove").disabled = this.state.templates.length === 1;
        this.drawTabs();
        this.markFault();
    }

    drawTabs() {
        const tabs = this.element("tabs"), isFocused = tabs.contains(document.activeElement);
        tabs.replaceChildren(...this.state.templates.map(({ name }, place) => {
            const tab = document.createElement("button"), isOpen = place === this.state.open;
            Object.assign(tab, { type: "button", textContent: name, tabIndex: isOpen ? 0 : -1 });
            tab.setAttribute("role", "tab");
            tab.setAttribute("aria-selected", isOpen);
            tab.setAttribute("aria-controls", "template");
            if (this.fault?.file === name) {
                tab.className = "faulty";
                tab.title = this.fault.word;
            }
            tab.addEventListener("click", () => {
                this.openTemplate(place);
                this.ask();
            });
            return tab;
        }));
        if (isFocused) tabs.children[this.state.open].focus();
    }

    stepThroughTabs({ key }) {
        const step = { ArrowLeft: -1, ArrowRight: 1 }[key];
        if (!step) return;
        const count = this.state.templates.length;
        this.openTemplate((this.state.open + step + count) % count);
        this.element("tabs").children[this.state.open].focus();
        this.ask();
    }

    rename(name) {
        const { templates, open } = this.state;
        const isTaken = templates.some((other, place) => place !== open && other.name === name);
        this.element("name-trouble").textContent = isTaken ? "Another template has this name." : name ? "" : "A template wants a name.";
        if (isTaken || !name) return;
        if (this.state.subject === "template" && this.state.name === templates[open].name) this.state.name = name;
        templates[open].name = name;
        this.drawTabs();
        this.changed();
    }

    addTemplate() {
        const names = this.state.templates.map(({ name }) => name);
        let number = names.length + 1;
        while (names.includes(`template-${number}.html`)) number++;
        this.state.templates.push({ name: `template-${number}.html`, text: "" });
        this.openTemplate(names.length);
        this.element("name").select();
        this.element("name").focus();
        this.changed();
    }

    removeTemplate() {
        const [{ name }] = this.state.templates.splice(this.state.open, 1);
        if (this.state.subject === "template" && this.state.name === name) this.state.name = this.state.templates[0].name;
        this.openTemplate(Math.max(0, this.state.open - 1));
        // A button that is disabled loses the focus.
        if (this.element("remove").disabled) this.element("tabs").firstChild.focus();
        this.changed();
    }

    // What is rendered: a template, or a component.

    choose(value) {
        const [subject, ...name] = value.split(" ");
        Object.assign(this.state, { subject, name: name.join(" ") });
    }

    drawSubjects() {
        const group = (label, subject, names) => {
            const options = document.createElement("optgroup");
            options.label = label;
            options.append(...names.map(name => new Option(name, `${subject} ${name}`)));
            return options;
        };
        const { subject, name } = this.state, chosen = `${subject} ${name}`, select = this.element("subject");
        const names = this.state.templates.map(template => template.name);
        const components = subject === "component" && !this.components.includes(name) ? [...this.components, name] : this.components;
        select.replaceChildren(group("Templates", "template", names));
        if (components.length > 0) select.append(group("Components, with the data as arguments", "component", components));
        select.value = chosen;
    }

    // Asking.

    changed() {
        this.drawSubjects();
        this.writeLinkSoon();
        return this.ask();
    }

    // Asks about what stands there now; while that goes on, once more at its end.
    ask() {
        this.isChanged = true;
        this.isAsking ||= this.askUntilSettled();
        return this.isAsking;
    }

    async askUntilSettled() {
        try {
            while (this.isChanged) {
                this.isChanged = false;
                this.element("status").textContent = "rendering";
                await this.askAll();
            }
        } finally {
            this.isAsking = false;
        }
    }

    async askAll() {
        const { templates, data, subject, name, autoescape, decimals, open } = this.state;
        const common = { templates, autoescape, decimals, seconds: Math.floor(Date.now() / 1000), json: "", name: "" };
        const names = async question => {
            const answer = await this.engine.ask({ ...common, ...question });
            return { ...answer, names: answer.text?.split("\n").filter(line => line) };
        };
        const variables = await names({ subject: "variables", name: templates[open].name });
        // Where the templates alone take too long, so would any further question about them, and an engine that fails would fail again.
        if (variables.lacks === "time" || variables.failed) return this.show(variables);
        const components = await names({ subject: "components" });
        this.showNames(variables.names, components.names);
        this.show(await this.engine.ask({ ...common, subject, name, json: data }));
    }

    // Showing.

    showNames(variables, components) {
        const told = names => (names ? names.join(", ") || "none" : "not known while there is a fault");
        this.element("variables").textContent = told(variables);
        this.element("components").textContent = told(components);
        if (components) {
            this.components = components;
            this.drawSubjects();
        }
    }

    show(answer) {
        const { text, fault, lacks, failed, took } = answer;
        const isMade = text !== undefined;
        this.answer = answer;
        this.fault = fault ? this.placed(fault) : null;
        this.element("report").hidden = isMade;
        this.element("go").hidden = !this.fault;
        if (!isMade) {
            const [message, ...words] = (fault ? fault.words : LACKS[lacks] ?? failed).split("\n");
            const kind = this.fault?.isInData ? "The data cannot be read" : fault?.kind;
            this.element("kind").textContent = kind ?? (lacks ? `Not enough ${lacks}` : "The engine failed");
            this.element("message").textContent = message;
            this.element("words").textContent = words.join("\n");
        } else {
            this.showOutput(text);
        }
        for (const id of ["output", "preview"]) this.element(id).classList.toggle("stale", !isMade);
        this.element("status").textContent = isMade ? `${took.toFixed(1)} ms` : "no output";
        this.firstShown ??= performance.now();
        this.drawTabs();
        this.markFault();
    }

    showOutput(text) {
        const shown = text.slice(0, MOST_SHOWN), told = count => count.toLocaleString("en");
        const isCut = shown.length < text.length;
        this.element("output-name").textContent = isCut ? `Output, the first ${told(MOST_SHOWN)} of ${told(text.length)} characters` : "Output";
        this.element("output").textContent = shown;
        this.preview.show(shown);
    }

    // The fault with its template, line and column, and what is told of it beside these, if its words begin with them. Where a batch does not go
    // together, only a line of the words has a place.
    placed(fault) {
        for (const line of fault.words.split("\n")) {
            const [, file, lineNumber, column, word] = /^(.+?):(\d+):(\d+): (.*)$/.exec(line) ?? [];
            if (this.state.templates.some(({ name }) => name === file)) {
                return { ...fault, file, line: Number(lineNumber), column: Number(column), word };
            }
        }
        if (fault.file !== undefined) return { ...fault, word: fault.kind };
        // Where the data cannot be read, the words begin with a place in it.
        const [, line, column] = /^line (\d+), column (\d+): /.exec(fault.words) ?? [];
        return line ? { ...fault, isInData: true, line: Number(line), column: Number(column) } : null;
    }

    markFault() {
        const isHere = this.fault && this.state.templates[this.state.open].name === this.fault.file;
        this.editor.markFault(isHere ? this.fault : null);
    }

    goToFault() {
        if (this.fault.isInData) {
            const data = this.element("data"), start = indexOfColumn(data.value, this.fault.line, this.fault.column);
            selectIn(data, start, start + 1);
            return;
        }
        const place = this.state.templates.findIndex(({ name }) => name === this.fault.file);
        if (place < 0) return;
        this.openTemplate(place);
        this.editor.goToMark();
    }

    // The link.

    // The address follows when there is no change for a moment, since browsers refuse many changes of it in a short time.
    writeLinkSoon() {
        clearTimeout(this.lateLink);
        this.lateLink = setTimeout(() => this.writeLink(), 300);
    }

    // Answers whether there is a link for what stands there now.
    async writeLink() {
        clearTimeout(this.lateLink);
        const turn = (this.links = (this.links ?? 0) + 1);
        try {
            const hash = `#${await written(this.state)}`;
            if (turn === this.links) {
                history.replaceState(null, "", hash);
                this.hash = hash;
            }
            return true;
        } catch {
            return false;
        }
    }

    async copyLink() {
        const button = this.element("link"), isThere = await this.writeLink();
        try {
            if (isThere) await navigator.clipboard.writeText(location.href);
            button.textContent = isThere ? "Copied" : "Too long for a link";
        } catch {
            button.textContent = "Copy it from the address";
        }
        setTimeout(() => (button.textContent = "Copy link"), 2000);
    }
}

const page = new Page();
page.open();
