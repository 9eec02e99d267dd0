// Where the items of a picture stand: what carries above what it carries, by dagre.

import { textWidth } from "./dom.js";
import { kindIndex, sideRoom } from "./kinds.js";

const WORDS = '11px Inter, "DejaVu Sans", system-ui, sans-serif';
const NAME = '13px Inter, "DejaVu Sans", system-ui, sans-serif';

// Hangs of more items or lines than this are shown in part: a picture of more can't be read on a screen.
const MOST_ITEMS = 160;
const MOST_LINES = 400;
const NEAR = 60;

/** Connections by item, both ways. Made once for a hang. */
function neighboursOf(hang) {
    if (hang.near) return hang.near;
    const { items, connections } = hang;
    const start = new Uint32Array(items.length + 2);
    for (let c = 0; c < connections.length; c += 3) {
        start[connections[c] + 2] += 1;
        start[connections[c + 1] + 2] += 1;
    }
    for (let i = 1; i < start.length; i += 1) start[i] += start[i - 1];
    const lines = new Uint32Array((connections.length / 3) * 2);
    for (let c = 0; c < connections.length; c += 3) {
        lines[start[connections[c] + 1]++] = c;
        lines[start[connections[c + 1] + 1]++] = c;
    }
    hang.near = { start, lines };
    return hang.near;
}

/** The items of a place and those around it, ring by ring, up to a number that a screen shows. */
function around(hang, items) {
    const { start, lines } = neighboursOf(hang);
    const drawn = new Set(items);
    let ring = [...items];
    while (ring.length && drawn.size < NEAR) {
        const next = [];
        for (const item of ring) {
            for (let l = start[item]; l < start[item + 1] && drawn.size < NEAR; l += 1) {
                const c = lines[l];
                const other = hang.connections[c] === item ? hang.connections[c + 1] : hang.connections[c];
                if (!drawn.has(other)) {
                    drawn.add(other);
                    next.push(other);
                }
            }
        }
        ring = next;
    }
    return drawn;
}

/** Which items of a hang are drawn, and whether these are all. */
export function drawnItems(hang, place, extra) {
    const n = hang.items.length;
    if (n <= MOST_ITEMS && hang.connections.length / 3 + extra.length <= MOST_LINES) {
        return { items: new Set(hang.items.keys()), isAll: true };
    }
    const from = place.length ? place : [0];
    return { items: around(hang, from), isAll: false };
}

/** The lines between drawn items: those between the same two in one direction are one line. */
function linesBetween(hang, items, extra) {
    const { start, lines } = neighboursOf(hang);
    const found = new Map();
    const add = (from, to, kind, change) => {
        const key = `${from} ${to}`;
        if (!found.has(key)) found.set(key, { from, to, kinds: [], changes: [] });
        found.get(key).kinds.push(kind);
        found.get(key).changes.push(change);
    };
    for (const item of items) {
        for (let l = start[item]; l < start[item + 1]; l += 1) {
            const c = lines[l];
            const [from, to, kind] = hang.connections.subarray(c, c + 3);
            if (from === item && items.has(to)) add(from, to, kind, taken(extra, from, to, kind) ? "taken" : null);
        }
    }
    for (const { adds, from, to, kind } of extra) {
        if (adds && items.has(from) && items.has(to)) add(from, to, kind, "added");
    }
    return [...found.values()];
}

function taken(extra, from, to, kind) {
    return extra.some((change) => !change.adds && change.from === from && change.to === to && change.kind === kind);
}

/** The boxes and lines of a picture. `extra` are changes that are shown besides, their kinds by index. */
export function layOut(hang, kinds, items, extra) {
    const graph = new globalThis.dagre.graphlib.Graph();
    const lines = linesBetween(hang, items, extra);
    const isCrowded = lines.length > 60;
    graph.setGraph({ rankdir: "TB", nodesep: 18, edgesep: 8, ranksep: isCrowded ? 50 : 40, marginx: 10, marginy: 10 });
    for (const item of [...items].sort((a, b) => a - b)) {
        const { name, kind } = hang.items[item];
        const index = kindIndex(kinds, kind);
        const width = Math.max(34, Math.ceil(textWidth(name, NAME)) + 2 * sideRoom(index));
        graph.setNode(String(item), { width, height: 34, index });
    }
    for (const line of lines) {
        line.words = [...new Set(line.kinds)].map((kind) => (typeof kind === "number" ? kinds.connections[kind] : kind)).join(", ");
        const room = isCrowded ? {} : { width: Math.ceil(textWidth(line.words, WORDS)), height: 14, labelpos: "c" };
        if (line.from !== line.to) graph.setEdge(String(line.from), String(line.to), room);
    }
    globalThis.dagre.layout(graph);
    const boxes = new Map([...items].map((item) => [item, graph.node(String(item))]));
    for (const line of lines) {
        const edge = line.from === line.to ? { points: loop(boxes.get(line.from)) } : graph.edge(String(line.from), String(line.to));
        line.points = edge.points;
        line.at = edge.x === undefined ? edge.points[Math.floor(edge.points.length / 2)] : { x: edge.x, y: edge.y };
    }
    const { width = 0, height = 0 } = graph.graph();
    return { boxes, lines, width: Math.max(1, width), height: Math.max(1, height), isCrowded };
}

function loop(box) {
    const x = box.x + box.width / 2;
    return [{ x, y: box.y - 8 }, { x: x + 24, y: box.y - 8 }, { x: x + 24, y: box.y + 8 }, { x, y: box.y + 8 }];
}
