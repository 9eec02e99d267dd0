// The places: their count above and below, a list to filter and sort, next and previous.

import { byId, h, fill, shown, count, duration, sentence, later, number, textWidth } from "./dom.js";
import { state, on, emit, chosenPattern, hangRead } from "./state.js";
import { kindClass, kindIndex } from "./kinds.js";
import { isDrawn, plainReason } from "./model.js";
import { makeRolling } from "./rolling.js";
import { find, findLane, PATTERN_FILE } from "./runs.js";

const ROW = 44;
const CHIP = '13px Inter, "DejaVu Sans", system-ui, sans-serif';

let order = null; // the rows that are shown, by their number in the list; null for all as they came
let sortBy = null; // { column, isDown }
let widths = [];
let current = null; // what was found last, as long as it is shown

const rolling = makeRolling({
    id: "list", label: "Places", height: ROW, row: makeRow, onChoose: (i) => choosePlace(numberOf(i)),
});

const list = () => current?.list ?? null;
const numberOf = (i) => (order ? order[i] : i);
const length = () => (order ? order.length : list()?.n ?? 0);

/** The items of a place. */
export function itemsOf(place) {
    const { flat, width } = list();
    return Array.from(flat.subarray(place * width, (place + 1) * width));
}

export function chip(item) {
    const { name, kind } = hangRead()?.items[item] ?? { name: String(item), kind: null };
    return h("span", { class: `chip ${kindClass(kindIndex(state.reading?.kinds, kind))}` }, name);
}

function makeRow(i) {
    const place = numberOf(i);
    const cells = itemsOf(place).map((item, v) => h("span", { class: "cell", style: `width:${widths[v]}px` }, chip(item)));
    return h("div", { class: "row" }, h("i", {}, (place + 1).toLocaleString("en")), cells);
}

/** Column widths by the longest names among the first rows and a sample of the others. */
function measure() {
    const { flat, width, n } = list();
    const items = hangRead()?.items ?? [];
    const step = Math.max(1, Math.floor(n / 400));
    const isPhone = matchMedia("(max-width: 720px)").matches;
    widths = Array.from({ length: width }, (_, v) => {
        let widest = 40;
        let seen = "";
        for (let r = 0; r < n; r += step) {
            const name = items[flat[r * width + v]]?.name ?? "";
            if (name.length > seen.length) seen = name;
        }
        widest = Math.max(widest, textWidth(seen, CHIP), textWidth(current.answer.vertices[v], CHIP) + 4);
        return Math.ceil(Math.min(widest, isPhone ? 180 : 260)) + 24;
    });
}

export function choosePlace(place) {
    state.place = place;
    emit("place");
}

/** The next place in the order that is shown, or the one before. */
export function step(by) {
    const n = length();
    if (n === 0) return;
    const now = rolling.chosen;
    rolling.choose(Math.max(0, Math.min(n - 1, now < 0 ? 0 : now + by)));
}

/** Rows that the filter leaves, in the order of the sorted column. Every word has to occur in some name of the place. */
function arrange() {
    const words = byId("filter").value.toLowerCase().split(/\s+/).filter(Boolean);
    const { flat, width, n } = list();
    const items = hangRead()?.items ?? [];
    order = null;
    if (words.length) {
        const fits = words.map((word) => Uint8Array.from(items, (item) => (item.name.toLowerCase().includes(word) ? 1 : 0)));
        order = [];
        for (let r = 0; r < n; r += 1) {
            const has = (fit) => {
                for (let v = 0; v < width; v += 1) if (fit[flat[r * width + v]]) return true;
                return false;
            };
            if (fits.every(has)) order.push(r);
        }
    }
    if (sortBy) {
        const { column, isDown } = sortBy;
        const collator = new Intl.Collator("en", { numeric: true });
        const ranked = items.map((item, i) => i).sort((a, b) => collator.compare(items[a].name, items[b].name));
        const rank = new Uint32Array(items.length);
        ranked.forEach((item, i) => (rank[item] = i));
        order ??= Array.from({ length: n }, (_, r) => r);
        const sign = isDown ? -1 : 1;
        order.sort((a, b) => sign * (rank[flat[a * width + column]] - rank[flat[b * width + column]]) || a - b);
    }
}

function drawHead() {
    const head = (name, column) => {
        const isBy = sortBy?.column === column;
        const next = !isBy ? { column, isDown: false } : sortBy.isDown ? null : { column, isDown: true };
        const words = isBy ? (sortBy.isDown ? "sorted downwards" : "sorted upwards") : "not sorted";
        return h("button", {
            type: "button", class: "cell", style: `width:${widths[column]}px`, "aria-label": `${name}, ${words}; sort`,
            onclick: () => {
                sortBy = next;
                show();
                byId("columns").children[column + 1]?.focus();
            },
        }, name, isBy ? (sortBy.isDown ? " ↓" : " ↑") : "");
    };
    fill(byId("columns"), h("i", {}, "#"), current.answer.vertices.map(head));
}

function show() {
    arrange();
    drawHead();
    const at = order ? order.indexOf(state.place) : state.place;
    rolling.set(length(), at);
    const room = 58 + widths.reduce((sum, width) => sum + width + 6, 0);
    rolling.node.firstChild.style.minWidth = `${room}px`;
    byId("columns").style.minWidth = `${room}px`;
    drawCounts();
}

function drawCounts() {
    const n = list().n;
    const isFiltered = order !== null && order.length !== n;
    byId("places-title").textContent = count(n, "place");
    byId("places-small").textContent = duration(current.ms);
    const all = n === 0 ? "0 places, all of them." : `${count(n, "place")}, all of them.`;
    byId("places-all").textContent = isFiltered ? `${number(order.length)} of ${count(n, "place")} shown. ${all}` : all;
    const at = order ? order.indexOf(state.place) : state.place;
    byId("step-words").textContent = `${at < 0 ? "–" : number(at + 1)} of ${number(length())}`;
}

/** What stands above the list: that vertices are alike, and what to do about it. */
function drawHint() {
    const { images, pairsAdded, places } = current.answer;
    const node = byId("places-hint");
    const alike = pairsAdded.length ? `${pairsAdded.join(", ")}: these are alike, so each place is listed once.` : "";
    const button = h("button", { type: "button", class: "link", onclick: () => emit("ask-once") }, "List each once");
    const isTwice = !state.once && images > 1 && places > 0;
    const mirror = isTwice ? [`The pattern is alike in ${images} ways, so each place stands ${images} times. `, button] : [];
    fill(node, alike, mirror);
    shown(node, alike !== "" || mirror.length > 0);
}

/** A sentence where there is no list. */
function tell(title, words, { isBad = false, action = null } = {}) {
    current = null;
    rolling.set(0);
    byId("places-title").textContent = title;
    byId("places-small").textContent = "";
    fill(byId("places-words"), h("p", { class: isBad ? "fault" : "" }, words), action);
    shown(byId("places-words"), true);
    for (const id of ["places-list", "places-hint", "places-all", "places-tools"]) shown(byId(id), false);
}

/** The text's own plan is refused: another lists the same places. */
const otherPlan = () => h("button", { type: "button", onclick: () => {
    state.plan = "picked";
    emit("options");
} }, "Use a picked plan");

const again = () => h("button", { type: "button", onclick: find }, "Run again");

function draw() {
    const found = state.found;
    const cancel = byId("run");
    // A run of a moment leaves the old list where it is, dimmed, so that nothing flickers.
    const isBrief = Boolean(found?.running) && found.ms < 200 && current !== null;
    byId("places").setAttribute("aria-busy", String(isBrief));
    if (isBrief) return undefined;
    shown(cancel, Boolean(found?.running));
    if (found?.running) {
        byId("run-time").textContent = duration(found.ms);
        return tell("Looking for places", "The list comes when it is whole.");
    }
    if (state.hang.length === 0) return tell("Places", "Open a text or two tables, or look at an example.");
    if (state.reading?.errorCount && !chosenPattern()) return tell("No list", faultWords(state.reading.errors), { isBad: true });
    if (!chosenPattern()) return tell("Places", "Draw a pattern: what to look for in the hang.");
    if (!found) return tell("Places", "");
    if (found.cancelled) {
        return tell("No list", `Cancelled after ${duration(found.ms)}. There is no list.`, { isBad: true, action: again() });
    }
    if (found.errors && !isDrawn(state.pattern) && hangRead()) {
        return tell("Places", "A pattern has two items at least, and a connection between them.");
    }
    if (found.errors) return tell("No list", faultWords(found.errors), { isBad: true });
    if (found.failed) {
        const action = state.pattern?.planFault ? otherPlan() : found.fault ? null : again();
        return tell("No list", sentence(plainReason(found.failed)), { isBad: true, action });
    }
    current = found;
    shown(byId("places-words"), false);
    shown(byId("places-list"), true);
    shown(byId("places-all"), true);
    shown(byId("places-tools"), found.list.n > 0);
    byId("filter").value = "";
    sortBy = null;
    measure();
    drawHint();
    show();
    if (found.list.n === 0) {
        fill(byId("places-words"), h("p", {}, sentence(found.answer.why ?? "")));
        shown(byId("places-words"), true);
        shown(byId("places-list"), false);
    }
    return undefined;
}

function faultWords(errors) {
    const isPattern = errors.every((fault) => fault.file === PATTERN_FILE);
    const where = isPattern ? "The pattern" : "The hang";
    const marked = errors.length === 1 ? "It is marked beside its line." : "They are marked beside their lines.";
    return `${where} has ${count(errors.length, "fault")}: ${sentence(errors[0].reason)} ${marked}`;
}

export function startPlaces() {
    byId("places-list").append(rolling.node);
    byId("cancel").addEventListener("click", () => findLane.cancel());
    byId("next").addEventListener("click", () => step(1));
    byId("previous").addEventListener("click", () => step(-1));
    byId("filter").addEventListener("input", later(() => list() && show(), 60));
    rolling.node.addEventListener("scroll", () => {
        byId("columns").style.transform = `translateX(${-rolling.node.scrollLeft}px)`;
    });
    on("found", draw);
    on("sketched", () => !list() && state.found && !state.found.running && draw());
    on("brought patterns", () => {
        if (!state.found) draw();
    });
    on("reading", () => (list() ? show() : !state.found && draw()));
    on("place", () => {
        if (!list()) return;
        const at = order ? order.indexOf(state.place) : state.place;
        if (rolling.chosen !== at) rolling.choose(at, false);
        drawCounts();
    });
    draw();
}
