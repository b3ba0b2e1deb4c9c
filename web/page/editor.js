"use strict";

// Where in a text of JavaScript this byte of its UTF-8 begins.
function indexOfByte(text, byte) {
    return new TextDecoder().decode(new TextEncoder().encode(text).slice(0, byte)).length;
}

// Where the column of a line begins; both are counted from 1 on, and columns in characters.
function indexOfColumn(text, line, column) {
    const lines = text.split("\n"), before = lines.slice(0, line - 1).join("\n").length + (line > 1 ? 1 : 0);
    return before + Array.from(lines[line - 1] ?? "").slice(0, column - 1).join("").length;
}

// What of the text is marked for a fault: its span, or from its line and column on a word.
function markOf(text, { start, end, line, column, word }) {
    if (start !== undefined) return { start: indexOfByte(text, start), end: indexOfByte(text, end), word };
    const index = indexOfColumn(text, line, column);
    return { start: index, end: index + /^\w*/.exec(text.slice(index))[0].length, word };
}

// Selects a part of a text area, and shows the line where it begins.
function selectIn(area, start, end) {
    const lines = area.value.split("\n").length, line = area.value.slice(0, start).split("\n").length - 1;
    area.focus();
    area.setSelectionRange(start, end);
    area.scrollTop = area.scrollHeight * line / lines - area.clientHeight / 2;
}

// A text area over a sheet of the same text, on which faults are marked, with the numbers of the lines beside it.
class Editor {
    constructor(frame, changed) {
        this.area = frame.querySelector("textarea");
        this.sheet = frame.querySelector(".sheet");
        this.numbers = frame.querySelector(".numbers");
        this.mark = null;
        this.area.addEventListener("input", () => {
            this.mark = null;
            this.draw();
            changed(this.area.value);
        });
        this.area.addEventListener("scroll", () => this.follow());
    }

    show(text) {
        if (this.area.value !== text) this.area.value = text;
        this.mark = null;
        this.draw();
    }

    // Marks the place of a fault, with its word at the end of the line; or nothing.
    markFault(fault) {
        this.mark = fault ? markOf(this.area.value, fault) : null;
        this.draw();
    }

    // Puts the cursor at the mark.
    goToMark() {
        this.area.focus();
        if (!this.mark) return;
        selectIn(this.area, this.mark.start, this.mark.end);
        this.area.scrollLeft = this.sheet.querySelector("mark").offsetLeft - this.area.clientWidth / 2;
        this.follow();
    }

    draw() {
        const { value } = this.area;
        const faulty = this.mark ? value.slice(0, this.mark.start).split("\n").length : 0;
        this.drawNumbers(value.split("\n").length, faulty);
        this.sheet.replaceChildren(...(this.mark ? this.marked(value) : []));
        this.follow();
    }

    // Few nodes, and drawn only when they change: a template may have very many lines.
    drawNumbers(count, faulty) {
        if (this.drawn === `${count} ${faulty}`) return;
        this.drawn = `${count} ${faulty}`;
        const numbers = (first, last) => Array.from({ length: last - first + 1 }, (_, place) => `${first + place}\n`).join("");
        const number = document.createElement("span");
        number.className = "faulty";
        number.textContent = faulty ? `${faulty}\n` : "";
        this.numbers.replaceChildren(numbers(1, faulty - 1), number, numbers(faulty + 1, count));
    }

    marked(value) {
        const { start, end, word } = this.mark;
        const lineEnd = value.indexOf("\n", start) < 0 ? value.length : value.indexOf("\n", start);
        const mark = document.createElement("mark"), note = document.createElement("span");
        // A place without width is shown as one column.
        mark.textContent = value.slice(start, Math.min(end, lineEnd)) || " ";
        note.textContent = `  ${word}`;
        return [value.slice(0, start), mark, value.slice(Math.min(end, lineEnd), lineEnd), note, value.slice(lineEnd), "\n"];
    }

    follow() {
        this.sheet.scrollTop = this.numbers.scrollTop = this.area.scrollTop;
        this.sheet.scrollLeft = this.area.scrollLeft;
    }
}
