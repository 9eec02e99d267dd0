// A pattern as drawing and as text at once: either is edited, the other follows.

import { byId, h, fill, shown } from "./dom.js";
import { state, on, emit, chosenPattern, kindsOfHang } from "./state.js";
import { keepingComments, linesAbove, sentenceOf, titleOf } from "./sections.js";
import { addVertex, connect, emptyPattern, isDrawn, MOST_VERTICES, patternWords, plainReason, vertexName } from "./model.js";
import { addedPairs, drawingHint, markedParts } from "./marks.js";
import { drawSketch, extentOf, tidySpots } from "./sketch.js";
import { makeGestures } from "./gestures.js";
import { drawForm, without } from "./form.js";
import { makeEditor } from "./editor.js";
import { makeZoom } from "./zoom.js";
import { ask } from "./runs.js";
import { makeHistory } from "./history.js";

let spots = [];
let selected = null;
let faults = [];
let version = 0;
let isMoving = false;
let gestures = null;
let zoom = null;
let lastKind = null;
let lastEdge = null;

const history = makeHistory();
const editor = makeEditor({ label: "The pattern as text", id: "pattern-text", placeholder: "[query]", onInput: textEdited });
const say = (words) => words && fill(byId("say"), words);

/** Where the vertices stand, by their names, so that a text that was edited finds them again. */
function keepSpots() {
    const pattern = chosenPattern();
    if (!pattern || !state.pattern) return;
    const at = (spot, v) => [vertexName(state.pattern, v), [Math.round(spot.x), Math.round(spot.y)]];
    pattern.spots = Object.fromEntries(spots.map(at));
    pattern.model = state.pattern;
}

/** Takes a pattern that was read; what has no place in the drawing yet gets one. */
function adopt(model) {
    const known = chosenPattern()?.spots ?? {};
    const tidy = tidySpots(model, kindsOfHang());
    const spotOf = (_, v) => known[vertexName(model, v)];
    state.pattern = model;
    spots = model.vertices.every(spotOf) ? model.vertices.map(spotOf).map(([x, y]) => ({ x, y })) : tidy;
    keepSpots();
}

/** Reads the text of the chosen pattern; the drawing follows. */
async function readText() {
    const pattern = chosenPattern();
    version += 1;
    const mine = version;
    if (!pattern) {
        state.pattern = null;
        [spots, faults, selected] = [[], [], null];
        draw();
        return;
    }
    const failed = (failure) => ({ errors: [], warnings: [], failed: failure.words });
    const answer = await ask("pattern", { text: pattern.text, kinds: kindsOfHang() }).catch(failed);
    if (mine !== version || pattern !== chosenPattern()) return;
    if (answer.pattern) adopt(answer.pattern);
    else if (pattern.model) adopt(pattern.model);
    else state.pattern ??= emptyPattern(titleOf(pattern.text));
    tellFaults(answer, 0);
    settleSelection();
    draw();
    emit("sketched");
}

function settleSelection() {
    const model = state.pattern;
    const is = selected?.vertex !== undefined ? selected.vertex < model.vertices.length
        : selected?.edge !== undefined ? selected.edge < model.edges.length
        : selected?.pair !== undefined ? selected.pair < model.pairs.length : true;
    if (!is) selected = null;
}

function tellFaults(answer, above) {
    const besides = [answer.pattern?.fault, answer.pattern?.planFault].filter(Boolean);
    const shifted = (fault) => ({ ...fault, line: fault.line + above, reason: plainReason(fault.reason) });
    const all = [...(answer.errors ?? []), ...(answer.warnings ?? []), ...besides].map(shifted);
    // A drawing that has only begun is no fault.
    faults = isDrawn(state.pattern) ? all : all.filter((fault) => !fault.reason.startsWith("too few"));
    editor.setFaults(faults);
}

function drawDrawing() {
    const group = byId("pattern-content");
    const model = state.pattern;
    const focus = group.contains(document.activeElement) ? document.activeElement.dataset.key : null;
    shown(byId("pattern-empty"), !model || model.vertices.length === 0);
    const look = model && { selected, ...markedParts(model, faults), connecting: gestures?.connecting ?? null };
    fill(group, model ? drawSketch(model, kindsOfHang(), spots, look, addedPairs(model)) : []);
    byId("pattern-drawing").setAttribute("aria-label", model ? patternWords(model) : "No pattern yet");
    if (focus) group.querySelector(`[data-key="${focus}"]`)?.focus();
    const hint = drawingHint(model, faults);
    byId("pattern-hint").textContent = hint.words;
    byId("pattern-hint").classList.toggle("fault", hint.isFault);
    shown(byId("pattern-hint"), hint.words !== "");
}

function draw({ keepsForm = false } = {}) {
    const pattern = chosenPattern();
    editor.set(pattern?.text ?? "");
    drawDrawing();
    if (!keepsForm) drawForm(byId("pattern-form"), state.pattern, selected, kindsOfHang(), told);
    const select = byId("pattern-choice");
    fill(select, state.patterns.map((each, i) => h("option", { value: String(i) }, titleOf(each.text))));
    select.value = String(state.chosen);
    shown(select.parentElement, state.patterns.length > 0);
    byId("pattern-sentence").textContent = pattern ? sentenceOf(pattern.text) : "";
    byId("once").checked = state.once;
    byId("undo").disabled = !history.canUndo;
    byId("redo").disabled = !history.canRedo;
    byId("whole-pattern").disabled = !pattern;
    byId("whole-pattern").setAttribute("aria-expanded", String(Boolean(selected?.pattern)));
}

/** Shows the drawing as large as there is room, where it is not seen whole. */
function frame() {
    if (!state.pattern?.vertices.length) return;
    zoom.show(extentOf(state.pattern, kindsOfHang(), spots), { most: 1, least: 0.65 });
}

/** Text was typed. */
function textEdited(text) {
    history.push(snapshot(), "typing");
    if (!chosenPattern()) {
        state.patterns.push({ text });
        state.chosen = state.patterns.length - 1;
    }
    const pattern = chosenPattern();
    pattern.text = text;
    pattern.model = null;
    readText().then(frame);
    emit("pattern");
}

/** Changes the drawing; the text follows. `change` may answer false where nothing is to be done. */
async function edit(change, { keepsForm = false, keepsPlan = false } = {}) {
    const before = snapshot();
    const isNew = !chosenPattern();
    const model = state.pattern ? structuredClone(state.pattern) : emptyPattern(freshTitle());
    if (change(model) === false) return;
    if (!keepsPlan) model.plan = null;
    history.push(before, keepsForm ? "field" : null);
    if (isNew) {
        state.patterns.push({ text: "" });
        state.chosen = state.patterns.length - 1;
    }
    const pattern = chosenPattern();
    state.pattern = model;
    keepSpots();
    settleSelection();
    draw({ keepsForm });
    version += 1;
    const mine = version;
    const failed = (failure) => ({ failed: failure.words });
    const answer = await ask("write_pattern", { pattern: model, kinds: kindsOfHang() }).catch(failed);
    if (mine !== version || pattern !== chosenPattern()) return;
    if (answer.failed) {
        say(answer.failed);
        return;
    }
    pattern.text = keepingComments(answer.text, pattern.text);
    tellFaults(answer, linesAbove(pattern.text));
    draw({ keepsForm: true });
    emit(isNew ? "patterns" : "pattern");
}

function freshTitle() {
    const taken = new Set(state.patterns.map((pattern) => titleOf(pattern.text)));
    let n = state.patterns.length + 1;
    while (taken.has(`pattern-${n}`)) n += 1;
    return `pattern-${n}`;
}

const snapshot = () => structuredClone({ patterns: state.patterns, chosen: state.chosen });

function restore(saved) {
    if (!saved) return;
    Object.assign(state, structuredClone(saved));
    selected = null;
    state.pattern = null;
    readText().then(frame);
    emit("patterns");
}

/** A free place near a point, or below the others. */
function freeSpot(point) {
    if (point) return point;
    if (spots.length === 0) return { x: 0, y: 0 };
    const { x, y, width, height } = extentOf(state.pattern, kindsOfHang(), spots);
    return { x: x + width / 2, y: y + height + 70 };
}

function addAt(point) {
    let v = -1;
    edit((model) => {
        v = addVertex(model, lastKind);
        if (v < 0) {
            say(`A pattern has at most ${MOST_VERTICES} items.`);
            return false;
        }
        spots = [...spots.slice(0, v), freeSpot(point)];
        selected = { vertex: v };
        return true;
    });
    if (v >= 0 && !point) {
        frame();
        byId("pattern-content").querySelector(`[data-vertex="${v}"]`)?.focus();
    }
    return v;
}

/** The connection that was made is chosen, so that its kind can be picked. */
function connected(answer) {
    if (typeof answer === "string") {
        say(answer);
        return false;
    }
    selected = { edge: answer };
    return true;
}

const told = {
    edit,
    model: () => state.pattern,
    connected,
    say: (words) => {
        say(words);
        return words ? false : true;
    },
    removePattern,
    lastKind: () => lastEdge,
    remember: (kind) => (lastKind = kind),
    rememberEdge: (kind) => (lastEdge = kind),
    add: addAt,
    select(what, isEntered = false) {
        selected = what;
        draw();
        if (isEntered) byId("pattern-form").querySelector("input, select, button")?.focus();
    },
    connect: (from, to) => edit((model) => connected(connect(model, from, to, lastEdge))),
    connectNew(from, point) {
        edit((model) => {
            const v = addVertex(model, lastKind);
            if (v < 0) return told.say(`A pattern has at most ${MOST_VERTICES} items.`);
            spots = [...spots.slice(0, v), point];
            connect(model, from, v, lastEdge);
            selected = { vertex: v };
            return true;
        });
    },
    connecting(v) {
        say(`Connect ${vertexName(state.pattern, v)}: go to another item and press Enter.`);
        draw();
    },
    move(v, point, isLast) {
        spots[v] = point;
        if (isLast) keepSpots();
        drawDrawing();
    },
    pan: (dx, dy) => zoom.moveBy(dx, dy),
    moveBy(v, dx, dy) {
        told.move(v, { x: spots[v].x + dx, y: spots[v].y + dy }, true);
    },
    remove(what) {
        edit((model) => {
            without(model, what);
            if (what.vertex !== undefined) spots.splice(what.vertex, 1);
            selected = null;
            return true;
        });
        byId("pattern-drawing").focus();
    },
};

function choosePattern(i) {
    state.chosen = i;
    selected = null;
    state.pattern = null;
    readText().then(frame);
    emit("patterns");
}

function newPattern() {
    history.push(snapshot());
    const name = freshTitle();
    const model = emptyPattern(name);
    state.patterns.push({ text: `[query ${name}]\n`, model });
    choosePattern(state.patterns.length - 1);
}

function removePattern() {
    if (!chosenPattern()) return;
    history.push(snapshot());
    state.patterns.splice(state.chosen, 1);
    choosePattern(Math.max(0, state.chosen - 1));
}

function undoKeys(event) {
    if (!(event.ctrlKey || event.metaKey) || event.altKey) return;
    const key = event.key.toLowerCase();
    if (key === "z" && !event.shiftKey) restore(history.undo(snapshot()));
    else if (key === "y" || (key === "z" && event.shiftKey)) restore(history.redo(snapshot()));
    else return;
    event.preventDefault();
}

function askOnce(is) {
    state.once = is;
    byId("once").checked = is;
    emit("options");
}

export function startPattern() {
    byId("pattern-editor").append(editor.node);
    const svg = byId("pattern-drawing");
    zoom = makeZoom(svg, byId("pattern-content"), { isStill: true });
    gestures = makeGestures(svg, byId("pattern-content"), told, () => isMoving);
    byId("pattern").addEventListener("keydown", undoKeys);
    byId("add-item").addEventListener("click", () => addAt(null));
    byId("undo").addEventListener("click", () => restore(history.undo(snapshot())));
    byId("redo").addEventListener("click", () => restore(history.redo(snapshot())));
    byId("tidy").addEventListener("click", () => {
        if (!state.pattern) return;
        spots = tidySpots(state.pattern, kindsOfHang());
        keepSpots();
        drawDrawing();
        frame();
    });
    byId("move").addEventListener("click", (event) => {
        isMoving = !isMoving;
        event.currentTarget.setAttribute("aria-pressed", String(isMoving));
    });
    byId("once").addEventListener("change", (event) => askOnce(event.target.checked));
    byId("pattern-choice").addEventListener("change", (event) => choosePattern(Number(event.target.value)));
    byId("new-pattern").addEventListener("click", newPattern);
    byId("whole-pattern").addEventListener("click", () => told.select(selected?.pattern ? null : { pattern: true }));
    new ResizeObserver(frame).observe(svg);
    on("ask-once", () => askOnce(true));
    on("ask-pattern", choosePattern);
    on("reading", () => readText().then(frame));
    on("found", () => !state.found?.running && drawDrawing());
    on("brought", () => {
        history.clear();
        selected = null;
        state.pattern = null;
        readText().then(frame);
    });
    draw();
}
