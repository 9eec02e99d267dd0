// A text that is edited, with line numbers, and faults beside their lines.

import { h, fill, textWidth, sentence } from "./dom.js";

const LINE = 20;
const PAD = 8;
const FONT = '13px "DejaVu Sans Mono", ui-monospace, Menlo, Consolas, monospace';
const TAB = 8;
// Faults that are listed below the text; all are marked in it.
const MOST_ROWS = 200;

/** Blanks instead of tabs, as they are shown. */
function expanded(text) {
    let out = "";
    for (const c of text) out += c === "\t" ? " ".repeat(TAB - (out.length % TAB)) : c;
    return out;
}

/** An editor with a label. `onInput(text)` is called at each stroke. */
export function makeEditor({ label, id, onInput, placeholder }) {
    let faults = [];
    const numbers = h("div", { class: "numbers", "aria-hidden": "true" });
    const marks = h("div", { class: "marks", "aria-hidden": "true" });
    const area = h("textarea", {
        id, "aria-label": label, placeholder, wrap: "off", spellcheck: "false",
        autocapitalize: "off", autocomplete: "off", autocorrect: "off",
    });
    const list = h("ul", { class: "faults", "aria-label": `Faults: ${label}` });
    const sheet = h("div", { class: "sheet" }, numbers, h("div", { class: "text" }, area, marks));
    const node = h("div", { class: "editor" }, sheet, list);

    /** Draws numbers and marks of the lines that are seen. */
    function draw() {
        const lines = area.value.split("\n");
        const first = Math.max(0, Math.floor((area.scrollTop - PAD) / LINE));
        const last = Math.min(lines.length, first + Math.ceil(area.clientHeight / LINE) + 2);
        const worst = new Map();
        for (const fault of faults) if (worst.get(fault.line) !== "error") worst.set(fault.line, fault.severity);
        const top = (line) => PAD + line * LINE - area.scrollTop;
        const number = (line) => h("div", { class: worst.get(line + 1) ?? "", style: `top:${top(line)}px` }, String(line + 1));
        fill(numbers, Array.from({ length: Math.max(0, last - first) }, (_, i) => number(first + i)));
        const seen = faults.filter((fault) => fault.line > first && fault.line <= last);
        fill(marks, seen.flatMap((fault) => mark(lines[fault.line - 1] ?? "", fault, top(fault.line - 1), seen)));
    }

    /** The stretch that is underlined, and the words behind the line. */
    function mark(line, fault, top, seen) {
        const chars = [...line];
        const before = textWidth(expanded(chars.slice(0, fault.column - 1).join("")), FONT);
        const upto = textWidth(expanded(chars.slice(0, fault.column - 1 + Math.max(1, fault.length)).join("")), FONT);
        const left = PAD + before - area.scrollLeft;
        const end = PAD + textWidth(expanded(line), FONT) + 16 - area.scrollLeft;
        const place = `top:${top}px;left:${left}px;width:${Math.max(8, upto - before)}px`;
        const under = h("div", { class: `under ${fault.severity}`, style: place });
        const isFirst = seen.find((other) => other.line === fault.line) === fault;
        const words = isFirst && h("div", { class: `beside ${fault.severity}`, style: `top:${top}px;left:${end}px` }, fault.reason);
        return [under, words];
    }

    function reveal(line, column = 1) {
        const lines = area.value.split("\n");
        const start = lines.slice(0, line - 1).reduce((sum, each) => sum + each.length + 1, 0);
        area.focus();
        area.setSelectionRange(start + column - 1, start + column - 1);
        area.scrollTop = Math.max(0, (line - 4) * LINE);
        draw();
    }

    function row(fault) {
        const words = `Line ${fault.line}: ${fault.reason}${fault.help ? `; ${fault.help}` : ""}`;
        const go = () => reveal(fault.line, fault.column);
        return h("li", {}, h("button", { type: "button", class: fault.severity, onclick: go }, sentence(words)));
    }

    area.addEventListener("input", () => {
        draw();
        onInput(area.value);
    });
    area.addEventListener("scroll", draw);
    new ResizeObserver(draw).observe(area);

    return {
        node,
        area,
        reveal,
        get text() {
            return area.value;
        },
        /** Shows another text; the cursor stays where the text is the same. */
        set(given) {
            const text = given.replace(/\r\n?/g, "\n");
            if (area.value === text) return;
            const at = area.selectionStart;
            const isFocused = document.activeElement === area;
            area.value = text;
            if (isFocused) area.setSelectionRange(at, at);
            draw();
        },
        /** Shows faults: those of this text, in their order. `total` is how many there are where not all are listed. */
        setFaults(all, total = all.length) {
            faults = all;
            const listed = all.slice(0, MOST_ROWS);
            const left = total - listed.length;
            fill(list, listed.map(row), left > 0 && h("li", { class: "rest" }, `and ${left.toLocaleString("en")} more`));
            area.setAttribute("aria-invalid", all.some((fault) => fault.severity === "error") ? "true" : "false");
            draw();
        },
    };
}
