// The drawing of a pattern: where its vertices stand, and their shapes, connections and pairs.

import { s, textWidth } from "./dom.js";
import { kindClass, kindIndex, kindWords, leaving, outline, sideRoom } from "./kinds.js";
import { daysWords, isMirror, vertexName } from "./model.js";

const NAME = '14px Inter, "DejaVu Sans", system-ui, sans-serif';
const SMALL = '12px Inter, "DejaVu Sans", system-ui, sans-serif';
const HEIGHT = 44;

/** What stands above a vertex. */
function labels(vertex) {
    const kind = vertex.kind === null ? "any kind" : kindWords(vertex.kind);
    return [kind === vertex.name ? "" : kind, daysWords(vertex.days)].filter(Boolean);
}

/** Where they stand: above, or below or at a side where connections arrive. */
function labelSide(model, spots, v) {
    const others = model.edges.flatMap(({ from, to }) => (from === v ? [to] : to === v ? [from] : []));
    const isAbove = others.some((other) => spots[other].y < spots[v].y - HEIGHT / 2);
    const isBelow = others.some((other) => spots[other].y > spots[v].y + HEIGHT / 2);
    if (!isAbove || !isBelow) return isAbove ? "below" : "above";
    const { x, y } = spots[v];
    const near = (sign) => spots.some((spot) => Math.abs(spot.y - y) < HEIGHT && sign * (spot.x - x) > 0 && sign * (spot.x - x) < 220);
    return near(1) && !near(-1) ? "left" : "right";
}

/** The lines of a label around the origin of its vertex. */
function drawLabels(side, lines, width) {
    const top = { above: -HEIGHT / 2 - 8 - 16 * (lines.length - 1), below: HEIGHT / 2 + 16 }[side] ?? 4 - 8 * (lines.length - 1);
    const x = { left: -width / 2 - 8, right: width / 2 + 8 }[side] ?? 0;
    return lines.map((text, i) => s("text", { class: `small ${side}`, x, y: top + 16 * i }, text));
}

export function boxOf(model, kinds, v) {
    const index = kindIndex(kinds, model.vertices[v].kind);
    const width = Math.max(60, Math.ceil(textWidth(vertexName(model, v), NAME)) + 2 * sideRoom(index) + 8);
    return { index, width, height: HEIGHT };
}

/** Places for all vertices, what carries above what it carries. */
export function tidySpots(model, kinds) {
    const graph = new globalThis.dagre.graphlib.Graph();
    graph.setGraph({ rankdir: "TB", nodesep: 52, ranksep: 44 });
    graph.setDefaultEdgeLabel(() => ({}));
    model.vertices.forEach((vertex, v) => {
        const above = labels(vertex);
        const wide = Math.max(boxOf(model, kinds, v).width, ...above.map((text) => textWidth(text, SMALL) + 8));
        graph.setNode(String(v), { width: wide, height: HEIGHT + 17 * above.length });
    });
    for (const { from, to } of model.edges) graph.setEdge(String(from), String(to));
    globalThis.dagre.layout(graph);
    const { width = 0, height = 0 } = graph.graph();
    return model.vertices.map((vertex, v) => {
        const { x, y } = graph.node(String(v));
        return { x: x - width / 2, y: y - height / 2 };
    });
}

/** The rectangle that the drawing takes. */
export function extentOf(model, kinds, spots) {
    const boxes = spots.map((spot, v) => {
        const { width } = boxOf(model, kinds, v);
        const lines = labels(model.vertices[v]);
        const side = labelSide(model, spots, v);
        const long = Math.max(0, ...lines.map((text) => textWidth(text, SMALL)));
        const wide = side === "left" || side === "right" ? width : Math.max(width, long);
        const [above, below] = ["above", "below"].map((each) => (side === each ? 17 * lines.length : 0));
        const [left, right] = ["left", "right"].map((each) => (side === each ? long + 10 : 0));
        return [spot.x - wide / 2 - left, spot.y - HEIGHT / 2 - above, spot.x + wide / 2 + right, spot.y + HEIGHT / 2 + below];
    });
    const [x, y] = [0, 1].map((i) => Math.min(...boxes.map((box) => box[i])));
    const [right, bottom] = [2, 3].map((i) => Math.max(...boxes.map((box) => box[i])));
    return { x, y, width: right - x, height: bottom - y };
}

/** The curve between two vertices, bent aside where several join them. */
function curve(model, kinds, spots, from, to, bend) {
    const [a, b] = [spots[from], spots[to]];
    const middle = { x: (a.x + b.x) / 2, y: (a.y + b.y) / 2 };
    const long = Math.hypot(b.x - a.x, b.y - a.y) || 1;
    const sign = from < to ? 1 : -1;
    const aside = { x: (-(b.y - a.y) / long) * bend * sign, y: ((b.x - a.x) / long) * bend * sign };
    const control = { x: middle.x + 2 * aside.x, y: middle.y + 2 * aside.y };
    const room = (v) => ({ width: boxOf(model, kinds, v).width + 6, height: HEIGHT + 6 });
    const start = leaving(a, room(from), control);
    const end = leaving(b, room(to), control);
    const at = { x: (start.x + 2 * control.x + end.x) / 4, y: (start.y + 2 * control.y + end.y) / 4 };
    return { d: `M${start.x} ${start.y} Q${control.x} ${control.y} ${end.x} ${end.y}`, at };
}

/** How far each connection is bent, so that those between the same two lie beside each other. */
function bends(model) {
    const groups = new Map();
    model.edges.forEach(({ from, to }, e) => {
        const key = `${Math.min(from, to)} ${Math.max(from, to)}`;
        if (!groups.has(key)) groups.set(key, []);
        groups.get(key).push(e);
    });
    const bend = new Array(model.edges.length).fill(0);
    for (const group of groups.values()) group.forEach((e, i) => (bend[e] = (i - (group.length - 1) / 2) * 46));
    return bend;
}

function drawVertex(model, kinds, spots, v, { selected, faulty, connecting }) {
    const { index, width, height } = boxOf(model, kinds, v);
    const vertex = model.vertices[v];
    const above = labels(vertex);
    const name = vertexName(model, v);
    const is = (what) => what?.vertex === v;
    const marks = { chosen: is(selected), faulty: faulty.has(name), connecting: connecting === v };
    const classes = ["vertex", kindClass(index), ...Object.keys(marks).filter((mark) => marks[mark])];
    const label = `${name}, ${vertex.kind ?? "of any kind"}${vertex.days ? `, inspected ${daysWords(vertex.days)}` : ""}`;
    return s("g", {
        class: classes.join(" "), transform: `translate(${spots[v].x} ${spots[v].y})`, tabindex: "0", role: "button",
        "aria-label": label, "aria-pressed": String(is(selected)), "data-vertex": v, "data-key": `vertex-${v}`,
    },
    s("path", { class: "shape", d: outline(index, width, height) }),
    s("text", { class: "name", y: 5 }, name),
    drawLabels(labelSide(model, spots, v), above, width));
}

function drawEdge(model, kinds, spots, e, bend, { selected, faultyLines }) {
    const edge = model.edges[e];
    const { d, at } = curve(model, kinds, spots, edge.from, edge.to, bend);
    const words = edge.kind === null ? "any" : kindWords(edge.kind);
    const isChosen = selected?.edge === e;
    const width = textWidth(words, SMALL) + 12;
    return s("g", {
        class: `edge ${isChosen ? "chosen" : ""} ${faultyLines.has(e) ? "faulty" : ""}`,
        tabindex: "0",
        role: "button",
        "aria-pressed": String(isChosen),
        "aria-label": `${vertexName(model, edge.from)} to ${vertexName(model, edge.to)}, ${edge.kind ?? "any connection"}`,
        "data-edge": e, "data-key": `edge-${e}`,
    },
    s("path", { class: "reach", d }),
    s("path", { class: "way", d, "marker-end": "url(#tip-pattern)" }),
    s("rect", { class: "reach", x: at.x - Math.max(44, width) / 2, y: at.y - 22, width: Math.max(44, width), height: 44 }),
    s("rect", { class: "plate", x: at.x - width / 2, y: at.y - 10, width, height: 20, rx: 4 }),
    s("text", { class: "small", x: at.x, y: at.y + 4 }, words));
}

/** A pair: the two in one order only, so that mirror images stand once. */
function drawPair(model, kinds, spots, pair, p, { selected }) {
    const isJoined = model.edges.some(({ from, to }) => [from, to].includes(pair.low) && [from, to].includes(pair.high));
    const { d, at } = curve(model, kinds, spots, pair.low, pair.high, isJoined ? -40 : 0);
    const words = isMirror(model, pair) ? "in any order" : `${vertexName(model, pair.low)} < ${vertexName(model, pair.high)}`;
    const width = textWidth(words, SMALL) + 10;
    const own = p === null ? {} : {
        tabindex: "0", role: "button", "data-pair": p, "data-key": `pair-${p}`,
        "aria-label": `${vertexName(model, pair.low)} and ${vertexName(model, pair.high)}, ${words}`,
        "aria-pressed": String(selected?.pair === p),
    };
    return s("g", { class: `pair ${selected?.pair === p && p !== null ? "chosen" : ""}`, ...own },
        p === null ? null : s("rect", { class: "reach", x: at.x - Math.max(44, width) / 2, y: at.y - 22, width: Math.max(44, width), height: 44 }),
        s("path", { class: "way", d }),
        s("text", { class: "small", x: at.x, y: at.y - 7 }, words));
}

/** All parts of the drawing. `added` are the pairs that 'in any order' adds. */
export function drawSketch(model, kinds, spots, look, added) {
    const bend = bends(model);
    return [
        ...added.map((pair) => drawPair(model, kinds, spots, pair, null, look)),
        ...model.pairs.map((pair, p) => drawPair(model, kinds, spots, pair, p, look)),
        ...model.edges.map((_, e) => drawEdge(model, kinds, spots, e, bend[e], look)),
        ...model.vertices.map((_, v) => drawVertex(model, kinds, spots, v, look)),
    ];
}
