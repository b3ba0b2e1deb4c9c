"use strict";

// What opens a connection, or asks for the address of a host, before anything is fetched. No policy of a page holds that back.
const AHEAD = [
    `link[rel~="preconnect" i]`, `link[rel~="dns-prefetch" i]`, `meta[http-equiv="x-dns-prefetch-control" i]`,
    // Other pages, to whose hosts a browser connects before it refuses to show them, and texts in which there may be more of all this.
    "iframe", "frame", "template[shadowrootmode]",
].join();
// Else some browsers ask for the address of each host that a link leads to.
const NO_ADDRESSES = `<meta http-equiv="x-dns-prefetch-control" content="off">`;

// A text of HTML without these.
function quiet(text) {
    const parsed = () => new DOMParser().parseFromString(text, "text/html");
    // What is written anew may be read otherwise, so it is looked at once more.
    for (let made = parsed(), found; (found = made.querySelectorAll(AHEAD)).length > 0; made = parsed()) {
        for (const element of found) element.remove();
        text = (made.doctype ? "<!doctype html>" : "") + made.documentElement.outerHTML;
    }
    const [begin] = /^\s*(<!doctype[^>]*>)?/i.exec(text);
    return begin + NO_ADDRESSES + text.slice(begin.length);
}

// Shows texts of HTML, each in a frame of its own, since another text in the same frame would be a step for the browser's button Back.
class Preview {
    constructor(place) {
        this.place = place;
    }

    // The frame of before stays until the next has its text, so that nothing flickers.
    show(text) {
        const frame = document.createElement("iframe");
        Object.assign(frame, { title: "Preview", srcdoc: quiet(text), hidden: true });
        frame.sandbox = "";
        frame.addEventListener("load", () => {
            while (frame.previousSibling) frame.previousSibling.remove();
            frame.hidden = false;
        }, { once: true });
        this.place.append(frame);
    }
}
