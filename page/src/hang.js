// The hang: what it has by kind, and its text or tables.

import { byId, h, fill, shown, count, later } from "./dom.js";
import { state, on, emit } from "./state.js";
import { kindClass, kindIndex, kindWords } from "./kinds.js";
import { makeEditor } from "./editor.js";
import { parted } from "./sections.js";
import { bring } from "./files.js";

// A longer text is shown only when it is asked for: an editor of that size is slow.
const LONG = 300_000;

let at = 0;
let isLongShown = false;

const told = later(() => emit("hang"), 200);

const editor = makeEditor({
    label: "Text of the hang",
    id: "hang-text",
    placeholder: "Paste a hang here, or write one:\n\n[graph]\nbeam: beam\nmotor-1: motor\nbeam -carries-> motor-1",
    onInput: edited,
});

function edited(text) {
    if (state.hang.length === 0) {
        state.hang = [{ name: "hang.txt", text }];
        state.title = "Hang";
        state.from = "";
        emit("titled");
    } else {
        state.hang[at] = { name: state.hang[at].name, text };
    }
    if (text.trim() === "" && state.hang.length === 1) state.hang = [];
    told();
}

/** Patterns and changes that stand in the text of the hang move to their own places. */
function absorb() {
    const source = state.hang[at];
    if (!source || source.bytes || /\.(csv|tsv|tab)$/i.test(source.name)) return;
    const parts = parted(source.text);
    if (parts.patterns.length === 0 && !parts.changes) return;
    told.cancel();
    bring([{ name: source.name, text: source.text }], state.title);
}

editor.area.addEventListener("blur", absorb);
editor.area.addEventListener("paste", () => setTimeout(absorb));

function kindChips(list, isItem) {
    const chip = ({ kind, count: n }) => {
        const index = isItem ? kindIndex(state.reading.kinds, asKind(kind)) : -1;
        const words = `${kindWords(kind, "no kind")} ${n.toLocaleString("en")}`;
        return h("li", { class: `chip ${isItem ? kindClass(index) : "plain"}` }, words);
    };
    return h("ul", { class: "chips" }, list.map(chip));
}

/** The summary writes a kind without a name as 'label 3'. */
function asKind(words) {
    const number = /^label (\d+)$/.exec(words);
    return number && !state.reading.kinds.items.includes(words) ? Number(number[1]) : words;
}

function drawSummary() {
    const summary = state.reading?.summary;
    const errors = state.reading?.errorCount ?? 0;
    const node = byId("hang-summary");
    if (state.readingFailed) return fill(node, h("p", { class: "fault" }, state.readingFailed));
    if (errors) return fill(node, h("p", { class: "fault" }, `${count(errors, "fault")}, so there is no hang yet.`));
    if (!summary) return fill(node);
    return fill(
        node,
        h("p", {}, h("b", {}, count(summary.items, "item"))),
        kindChips(summary.itemKinds, true),
        h("p", {}, h("b", {}, count(summary.connections, "connection"))),
        kindChips(summary.connectionKinds, false),
    );
}

function drawFaults() {
    const { errors = [], warnings = [], errorCount = 0 } = state.reading ?? {};
    const name = state.hang[at]?.name;
    const all = [...errors, ...warnings];
    const here = all.filter((fault) => fault.file === name);
    const unlisted = Math.max(0, errorCount - errors.length);
    editor.setFaults(here, here.length + unlisted);
    for (const tab of byId("hang-sources").children) {
        tab.classList.toggle("bad", errors.some((fault) => fault.file === tab.dataset.name));
    }
}

function drawSources() {
    const tabs = byId("hang-sources");
    shown(tabs, state.hang.length > 1);
    const tab = (source, i) => h("button", {
        type: "button", "data-name": source.name, "aria-pressed": String(i === at), onclick: () => {
            at = i;
            isLongShown = false;
            draw();
        },
    }, source.name);
    fill(tabs, state.hang.map(tab));
}

function draw() {
    at = Math.min(at, Math.max(0, state.hang.length - 1));
    const text = state.hang[at]?.text ?? "";
    const isLong = text.length > LONG && !isLongShown;
    shown(byId("hang-empty"), state.hang.length === 0);
    shown(byId("hang-long"), isLong);
    editor.node.classList.toggle("folded", isLong);
    byId("hang-long-words").textContent = `${state.hang[at]?.name ?? ""} has ${(text.length / 1e6).toFixed(1)} million letters.`;
    editor.set(isLong ? "" : text);
    drawSources();
    drawFaults();
}

export function startHang() {
    byId("hang-editor").append(editor.node);
    byId("hang-long-show").addEventListener("click", () => {
        isLongShown = true;
        draw();
        editor.area.focus();
    });
    on("brought", () => {
        at = 0;
        isLongShown = false;
        draw();
        drawSummary();
    });
    on("reading", () => {
        drawSummary();
        drawFaults();
    });
    draw();
}

/** Shows a fault of the hang in its editor. */
export function revealFault(fault) {
    const i = state.hang.findIndex((source) => source.name === fault.file);
    if (i < 0) return false;
    at = i;
    isLongShown = true;
    draw();
    editor.reveal(fault.line, fault.column);
    return true;
}
