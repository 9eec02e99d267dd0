// What changed: changes are written, loaded or put together, and the places are gone, new or kept.

import { byId, h, fill, shown, count, duration, sentence, later, textWidth } from "./dom.js";
import { state, on, emit, chosenPattern, hangRead, itemNumber } from "./state.js";
import { kindClass, kindIndex, kindWords } from "./kinds.js";
import { makeEditor } from "./editor.js";
import { makeRolling } from "./rolling.js";
import { ask, CHANGES_FILE, diffLane, PATTERN_FILE, patternArgs, sources } from "./runs.js";
import { markItems } from "./picture.js";
import { changesOf } from "./files.js";
import { isShown } from "./tabs.js";
import { quote } from "./words.js";

const CHIP = '13px Inter, "DejaVu Sans", system-ui, sans-serif';
const SORTS = { gone: ["−", "gone"], new: ["+", "new"], kept: ["=", "kept"] };

let rows = []; // { sort, names }
let seen = []; // the rows that are shown
let only = null; // the sort that is shown alone
let drawn = []; // the changes as the picture draws them
let isStale = true;

const editor = makeEditor({
    label: "Changes to the hang",
    id: "changes-text",
    placeholder: "[changes]\n- motor-1 -carries-> front-truss\n+ motor-1 -carries-> long-truss",
    onInput: (text) => changed(text, true),
});

const rolling = makeRolling({
    id: "diff-list", label: "Places that are gone, new and kept", height: 44, row: makeRow, onChoose: show,
});

function show(i) {
    const { sort, names } = seen[i];
    markItems(numbers(names), drawn, `${SORTS[sort][1]} place marked · green is added, dotted is taken away`);
}

function numbers(names) {
    return names.map(itemNumber).filter((item) => item >= 0);
}

function chipOf(name) {
    const item = hangRead()?.items[itemNumber(name)];
    return h("span", { class: `chip ${kindClass(kindIndex(state.reading?.kinds, item?.kind))}` }, name);
}

function makeRow(i) {
    const { sort, names } = seen[i];
    const [sign, word] = SORTS[sort];
    const mark = h("i", {}, h("b", { "aria-hidden": "true" }, sign), h("span", { class: "unseen" }, word));
    return h("div", { class: `row ${sort}` }, mark, names.map(chipOf));
}

const compare = later(() => {
    if (isShown("changes")) run();
}, 250);

function changed(text, isTyped) {
    state.changes = text;
    if (!isTyped) editor.set(text);
    isStale = true;
    emit("changed");
    compare();
}

/** Reads the changes for their faults and for the picture, and compares the places before and after. */
async function run() {
    isStale = false;
    if (!state.hang.length || !state.changes.trim()) {
        editor.setFaults([]);
        drawn = [];
        diffLane.show(null);
        return;
    }
    readChanges();
    if (!chosenPattern()) {
        diffLane.show(null);
        return;
    }
    diffLane.run("diff", patternArgs({ changes: true }), (answer, ms) => ({ answer, ms }));
}

async function readChanges() {
    const text = state.changes;
    const read = sources({ changes: true }).filter((source) => source.name !== PATTERN_FILE);
    const answer = await ask("read", { sources: read }).catch(() => null);
    if (!answer || text !== state.changes) return;
    const own = (list) => list.filter((fault) => fault.file === CHANGES_FILE);
    editor.setFaults([...own(answer.errors), ...own(answer.warnings), ...(answer.changesFault ? [answer.changesFault] : [])]);
    const { connections = [] } = state.reading?.kinds ?? {};
    const index = (kind) => (connections.includes(kind) ? connections.indexOf(kind) : kindWords(kind));
    drawn = (answer.changes ?? []).map((change) => ({ ...change, kind: index(change.kind) }));
}

function draw() {
    const found = state.differs;
    const words = byId("diff-words");
    const tell = (text, isBad) => {
        fill(words, text ? h("p", { class: isBad ? "fault" : "hint" }, text) : null);
        shown(byId("diff-result"), false);
    };
    shown(byId("diff-run"), Boolean(found?.running) && found.ms > 200);
    if (found?.running) {
        byId("diff-time").textContent = duration(found.ms);
        return undefined;
    }
    if (!state.hang.length) return tell("Open a hang first.");
    if (!state.changes.trim()) return tell("Write what is taken away (−) and what is added (+), or load it.");
    if (!chosenPattern()) return tell("Draw a pattern: what to look for before and after.");
    if (!found) return tell("");
    if (found.cancelled) return tell(`Cancelled after ${duration(found.ms)}. There is no list.`, true);
    if (found.failed) return tell(sentence(found.failed), true);
    const { answer } = found;
    if (answer.errorCount) return tell(`${count(answer.errorCount, "fault")}: ${sentence(answer.errors[0].reason)}`, true);
    fill(words);
    const of = (sort, list) => list.map((names) => ({ sort, names }));
    rows = [...of("gone", answer.gone), ...of("new", answer.new), ...of("kept", answer.keptRows ?? [])];
    shown(byId("diff-result"), true);
    drawSorts(answer);
    return undefined;
}

function drawSorts(answer) {
    const n = { gone: answer.gone.length, new: answer.new.length, kept: answer.kept };
    const button = (sort) => h("button", {
        type: "button", class: sort, "data-sort": sort, "aria-pressed": String(only === sort), onclick: () => {
            only = only === sort ? null : sort;
            drawSorts(answer);
            byId("diff-sorts").querySelector(`[data-sort=${sort}]`).focus();
        },
    }, h("b", {}, n[sort].toLocaleString("en")), ` ${SORTS[sort][1]}`);
    fill(byId("diff-sorts"), Object.keys(SORTS).map(button));
    seen = only ? rows.filter((row) => row.sort === only) : rows;
    const width = ({ names }) => names.reduce((sum, name) => sum + textWidth(name, CHIP) + 28, 0);
    const long = Math.max(0, ...seen.slice(0, 2000).map(width));
    rolling.node.firstChild.style.minWidth = `${Math.ceil(long) + 80}px`;
    byId("diff-list-place").style.height = `${Math.min(300, 44 * seen.length + 18)}px`;
    rolling.set(seen.length);
    const sums = `${n.gone} gone, ${n.new} new, ${n.kept} kept`;
    byId("diff-all").textContent = `${sums}: ${count(answer.before, "place")} before, ${answer.after} after, all of them.`;
}

/** Adds a line to the changes. */
function addLine(sign) {
    const [from, kind, to] = ["change-from", "change-kind", "change-to"].map((id) => byId(id).value.trim());
    if (!from || !kind || !to) {
        fill(byId("say"), "A change has two items and the kind of their connection.");
        return;
    }
    const text = state.changes.trim() ? state.changes.replace(/\s*$/, "\n") : "[changes]\n";
    changed(`${text}${sign} ${quote(from)} -${quote(kind)}-> ${quote(to)}\n`, false);
    byId("change-from").value = "";
    byId("change-to").value = "";
    byId("change-from").focus();
}

function drawNames() {
    const { items = [] } = hangRead() ?? {};
    fill(byId("item-names"), items.slice(0, 2000).map((item) => h("option", { value: item.name })));
    const kinds = state.reading?.kinds?.connections ?? [];
    fill(byId("change-kind"), kinds.map((kind) => h("option", { value: String(kind) }, String(kind))));
}

export function startChanges() {
    byId("changes-editor").append(editor.node);
    byId("diff-list-place").append(rolling.node);
    byId("diff-cancel").addEventListener("click", () => diffLane.cancel());
    byId("change-take").addEventListener("click", () => addLine("-"));
    byId("change-add").addEventListener("click", () => addLine("+"));
    byId("changes-file").addEventListener("change", async (event) => {
        const [file] = event.target.files;
        if (file) changed(await changesOf(file), false);
        event.target.value = "";
    });
    on("differs", draw);
    on("reading", drawNames);
    on("brought", () => {
        editor.set(state.changes);
        only = null;
        isStale = true;
        state.differs = null;
        draw();
        compare();
    });
    on("patterns pattern options reading", () => {
        isStale = true;
        compare();
    });
    on("tab", (name) => {
        if (name !== "changes") {
            if (drawn.length && (name === "places" || name === "work")) emit("place");
            return;
        }
        if (isStale) run();
        else draw();
    });
    draw();
}
