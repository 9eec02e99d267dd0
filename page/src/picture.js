// The hang as it hangs, top down: the chosen place marked, all places tinted.

import { byId, s, fill, shown, count, number } from "./dom.js";
import { state, on, hangRead } from "./state.js";
import { kindClass, outline } from "./kinds.js";
import { drawnItems, layOut } from "./layout.js";
import { makeZoom } from "./zoom.js";
import { itemsOf } from "./places.js";

let zoom = null;
let laid = null; // the layout that is shown, and of what it is
let place = []; // the items of the marked place
let tinted = new Set();
let extra = []; // changes that are drawn besides
let besides = ""; // what is said of them

const D = (points) => `M${points.map(({ x, y }) => `${x.toFixed(1)} ${y.toFixed(1)}`).join(" L")}`;

/** The connections of the marked place: for each of the pattern, which kinds join its two items. */
function markedLines() {
    const marks = new Set();
    const model = state.pattern;
    if (!model || place.length !== model.vertices.length) return marks;
    for (const edge of model.edges) marks.add(`${place[edge.from]} ${place[edge.to]}`);
    return marks;
}

function drawLine(line, marks) {
    const isMarked = marks.has(`${line.from} ${line.to}`);
    const change = ["added", "taken"].find((word) => line.changes.every((each) => each === word)) ?? "";
    const label = !laid.isCrowded || isMarked ? s("text", { x: line.at.x, y: line.at.y + 4 }, line.words) : null;
    const way = s("path", { d: D(line.points), "marker-end": isMarked ? "url(#tip-mark)" : "url(#tip)" });
    return s("g", { class: `line ${isMarked ? "marked" : ""} ${change}` }, way, label);
}

function drawItem(hang, item, box) {
    const { name, kind, day } = hang.items[item];
    const isMarked = place.includes(item);
    const classes = ["item", kindClass(box.index), isMarked ? "marked" : "", tinted.has(item) ? "tinted" : ""];
    const title = [name, kind, day ? `inspected ${day}` : ""].filter(Boolean).join(", ");
    return s("g", { class: classes.join(" "), transform: `translate(${box.x} ${box.y})`, "data-item": item },
        s("title", {}, title),
        s("path", { d: outline(box.index, box.width, box.height) }),
        s("text", { y: 5 }, name));
}

/** The rectangle that the marked items take. */
function extent(items) {
    const boxes = items.map((item) => laid.boxes.get(item)).filter(Boolean);
    const left = Math.min(...boxes.map((box) => box.x - box.width / 2));
    const top = Math.min(...boxes.map((box) => box.y - box.height / 2));
    const right = Math.max(...boxes.map((box) => box.x + box.width / 2));
    const bottom = Math.max(...boxes.map((box) => box.y + box.height / 2));
    return { x: left, y: top, width: right - left, height: bottom - top };
}

const whole = () => ({ x: 0, y: 0, width: laid.width, height: laid.height });

/** Shows the whole picture where it can be read so, else the place. */
function frame(isSmooth) {
    const { clientWidth: w, clientHeight: h } = byId("rig-drawing");
    const fits = Math.min(w / laid.width, h / laid.height);
    if (fits >= 0.55 || place.length === 0) zoom.show(whole(), { most: 1.25, isSmooth });
    else zoom.show(extent(place), { most: 1, isSmooth, least: 0.5 });
}

/** Draws the hang anew where it, or the part that is seen of it, is another. */
export function drawPicture({ isFresh = false } = {}) {
    const hang = hangRead();
    const group = byId("rig-content");
    shown(byId("rig-empty"), !hang);
    byId("rig-empty").textContent = state.hang.length
        ? "The picture comes when the hang has no faults." : "Open a text or two tables, or look at an example.";
    shown(byId("rig-tools"), Boolean(hang));
    if (!hang || hang.items.length === 0) {
        laid = null;
        byId("rig-small").textContent = "";
        fill(group);
        return;
    }
    const { kinds } = state.reading;
    const drawn = drawnItems(hang, place, extra);
    const isSame = laid && !isFresh && laid.hang === hang && laid.extra === extra && drawn.isAll && laid.isAll;
    if (!isSame) laid = { ...layOut(hang, kinds, drawn.items, extra), hang, extra, isAll: drawn.isAll };
    const marks = markedLines();
    const lines = [...laid.lines].sort((a, b) => marks.has(`${a.from} ${a.to}`) - marks.has(`${b.from} ${b.to}`));
    fill(group, lines.map((line) => drawLine(line, marks)), [...laid.boxes].map(([item, box]) => drawItem(hang, item, box)));
    group.classList.toggle("has-mark", place.length > 0);
    frame(isSame);
    describe(hang);
}

function describe(hang) {
    const n = state.found?.list?.n ?? 0;
    const words = [];
    if (besides) words.push(besides);
    else if (place.length && state.place >= 0) words.push(`place ${number(state.place + 1)} of ${number(n)} marked`);
    const items = count(hang.items.length, "item");
    if (!laid.isAll) words.push(`${laid.boxes.size} of ${items}, around ${place.length ? "the place" : "the first"}`);
    byId("rig-small").textContent = words.join(" · ");
    const names = place.map((item) => hang.items[item].name).join(", ");
    byId("rig-drawing").setAttribute("aria-label", `The rig, top down, ${items}${names ? `; marked: ${names}` : ""}`);
}

/** Marks items that are no place of the list, and draws changes besides. */
export function markItems(items, changes, words) {
    [place, extra, besides] = [items, changes, words];
    drawPicture();
}

function placeChanged() {
    place = state.place >= 0 && state.found?.list ? itemsOf(state.place) : [];
    extra = extra.length ? [] : extra;
    besides = "";
    drawPicture();
}

function foundChanged() {
    if (state.found?.running) return;
    const list = state.found?.list;
    tinted = new Set(list && list.n <= 20000 ? list.flat : []);
    placeChanged();
}

export function startPicture() {
    const svg = byId("rig-drawing");
    zoom = makeZoom(svg, byId("rig-content"));
    byId("zoom-in").addEventListener("click", () => zoom.zoomBy(1.3));
    byId("zoom-out").addEventListener("click", () => zoom.zoomBy(1 / 1.3));
    byId("zoom-all").addEventListener("click", () => laid && zoom.show(whole(), { most: 1.25, isSmooth: true }));
    new ResizeObserver(() => laid && frame(false)).observe(svg);
    on("found", foundChanged);
    // The numbers of items are those of one hang.
    on("hang brought", () => {
        [place, extra, tinted] = [[], [], new Set()];
    });
    on("place", placeChanged);
    on("sketched", () => place.length && drawPicture());
    on("reading", () => drawPicture({ isFresh: true }));
    drawPicture();
}
