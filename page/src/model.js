// A pattern as it is drawn: changes to it, and what it says in words.

export const MOST_VERTICES = 8;
export const MOST_EDGES = 24;

export function emptyPattern(name) {
    return { name, sentence: null, expect: null, vertices: [], edges: [], pairs: [], plan: null };
}

export function vertexName(model, v) {
    return model.vertices[v]?.name ?? String(v);
}

/** A name that no vertex has yet, after the kind. */
function freshName(model, kind) {
    const base = typeof kind === "string" ? kind : "item";
    const taken = new Set(model.vertices.map((_, v) => vertexName(model, v)));
    if (!taken.has(base)) return base;
    let n = 2;
    while (taken.has(`${base}-${n}`)) n += 1;
    return `${base}-${n}`;
}

/** Adds a vertex; answers its number, or -1 where there are as many as there can be. */
export function addVertex(model, kind) {
    if (model.vertices.length >= MOST_VERTICES) return -1;
    model.vertices.push({ name: freshName(model, kind), kind, days: null });
    return model.vertices.length - 1;
}

/** Gives a vertex another kind; a name that was made of the old kind follows. */
export function setKind(model, v, kind) {
    const vertex = model.vertices[v];
    const old = typeof vertex.kind === "string" ? vertex.kind : "item";
    const isMade = vertex.name !== null && (vertex.name === old || new RegExp(`^${escaped(old)}-\\d+$`).test(vertex.name));
    vertex.kind = kind;
    if (isMade) {
        vertex.name = null;
        vertex.name = freshName(model, kind);
    }
}

const escaped = (text) => text.replace(/[.*+?^${}()|[\]\\]/g, "\\$&");

export function removeVertex(model, gone) {
    const moved = (v) => (v > gone ? v - 1 : v);
    model.vertices.splice(gone, 1);
    model.edges = model.edges.filter((edge) => edge.from !== gone && edge.to !== gone)
        .map((edge) => ({ ...edge, from: moved(edge.from), to: moved(edge.to) }));
    model.pairs = model.pairs.filter((pair) => pair.low !== gone && pair.high !== gone)
        .map((pair) => ({ low: moved(pair.low), high: moved(pair.high) }));
}

const isSame = (a, b) => a.from === b.from && a.to === b.to && a.kind === b.kind;

/** Adds a connection; answers its number, or a sentence why not. */
export function connect(model, from, to, kind) {
    if (from === to) return "A connection joins two different items.";
    if (model.edges.length >= MOST_EDGES) return `A pattern has at most ${MOST_EDGES} connections.`;
    const edge = { from, to, kind };
    if (model.edges.some((other) => isSame(other, edge))) return "These two have that connection already.";
    model.edges.push(edge);
    return model.edges.length - 1;
}

/** Changes a connection, unless it would stand twice. */
export function changeEdge(model, e, change) {
    const edge = { ...model.edges[e], ...change };
    if (model.edges.some((other, i) => i !== e && isSame(other, edge))) return "These two have that connection already.";
    model.edges[e] = edge;
    return null;
}

/** Which days a vertex asks for, in words. */
export function daysWords(days) {
    if (!days || (days.first === null && days.last === null)) return "";
    if (days.first === null) return `until ${days.last}`;
    if (days.last === null) return `from ${days.first}`;
    return days.first === days.last ? `on ${days.first}` : `${days.first} to ${days.last}`;
}

/** Exchanging the two vertices of a pair leaves the pattern as it is. */
export function isMirror(model, { low, high }) {
    const image = (v) => (v === low ? high : v === high ? low : v);
    const same = (a, b) => JSON.stringify([a.kind, a.days]) === JSON.stringify([b.kind, b.days]);
    if (!same(model.vertices[low], model.vertices[high])) return false;
    const mirrored = ({ from, to, kind }) => ({ from: image(from), to: image(to), kind });
    return model.edges.every((edge) => model.edges.some((other) => isSame(other, mirrored(edge))));
}

/** A pattern that can be looked for has two items and a connection. */
export function isDrawn(model) {
    return Boolean(model) && model.vertices.length >= 2 && model.edges.length >= 1;
}

/** What is said of a pattern, in the words of the page. */
export function plainReason(reason) {
    if (!reason.startsWith("the query is not connected")) return reason;
    return "the pattern does not hang together: join all its items by connections";
}

/** A vertex in words. */
export function vertexWords(model, v) {
    const { kind, days } = model.vertices[v];
    return `${vertexName(model, v)}, ${kind ?? "of any kind"}${days ? `, inspected ${daysWords(days)}` : ""}`;
}

/** The pattern in words, for those who don't see the drawing. */
export function patternWords(model) {
    const vertices = model.vertices.map((_, v) => vertexWords(model, v));
    const edge = ({ from, to, kind }) => `${vertexName(model, from)} to ${vertexName(model, to)} by ${kind ?? "any connection"}`;
    return `Pattern: ${[...vertices, ...model.edges.map(edge)].join("; ")}`;
}
