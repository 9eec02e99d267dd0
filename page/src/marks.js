// What is marked in the drawing of a pattern: faults of its text, what nothing in the hang fits, and pairs that 'in any order' adds.

import { count } from "./dom.js";
import { state } from "./state.js";
import { isDrawn, vertexName } from "./model.js";

/** A name stands in a line, as a word of its own or in quotes. */
function has(line, name) {
    const plain = name.replace(/[.*+?^${}()|[\]\\]/g, "\\$&");
    return new RegExp(`(^|[\\s"])${plain}($|[\\s":])`).test(line);
}

/** The connection that a line of the text is about, or -1. */
function edgeOf(model, line) {
    if (!line.includes("->")) return -1;
    const [from, to] = [line.split("-")[0], line.split("->")[1] ?? ""];
    return model.edges.findIndex((edge) => has(from, vertexName(model, edge.from)) && has(to, vertexName(model, edge.to)));
}

/** What nothing in the hang fits, by the sentence of an empty list: the name of a vertex, or the number of a connection. */
function lonelyPart(model) {
    const why = state.found?.list?.n === 0 ? state.found.answer.why ?? "" : "";
    const name = /^no item fits (.+?): /.exec(why)?.[1] ?? null;
    const words = /^no two items (?:that fit )?have (.+?): the hang/.exec(why)?.[1];
    const inWords = ({ from, to, kind }) => `${vertexName(model, from)} -${kind ?? "any"}-> ${vertexName(model, to)}`;
    return { why, name, edge: model.edges.findIndex((edge) => inWords(edge) === words) };
}

/** The names of vertices and the numbers of connections that are marked. */
export function markedParts(model, faults) {
    const lonely = lonelyPart(model);
    const names = new Set(lonely.name === null ? [] : [lonely.name]);
    const edges = new Set(lonely.edge < 0 ? [] : [lonely.edge]);
    for (const { severity, source } of faults) {
        if (severity !== "error") continue;
        const line = source ?? "";
        const edge = edgeOf(model, line);
        if (edge >= 0) edges.add(edge);
        else model.vertices.map((_, v) => vertexName(model, v)).filter((name) => has(line, name)).forEach((name) => names.add(name));
    }
    return { faulty: names, faultyLines: edges };
}

/** What is said below the drawing: the next step, a fault, or why there is no place. */
export function drawingHint(model, faults) {
    const errors = faults.filter((fault) => fault.severity === "error");
    if (!model || model.vertices.length === 0) return { words: "", isFault: false };
    if (!isDrawn(model)) return { words: "Drag from one item to another for a connection.", isFault: false };
    if (errors.length) return { words: `${count(errors.length, "fault")}: ${errors[0].reason}`, isFault: true };
    return { words: lonelyPart(model).why, isFault: false };
}

/** The pairs that 'in any order' adds, as far as the last list says. */
export function addedPairs(model) {
    const words = state.once ? state.found?.answer?.pairsAdded ?? [] : [];
    const number = (name) => model.vertices.findIndex((_, v) => vertexName(model, v) === name);
    const pairs = words.map((each) => each.split(" < ").map(number));
    return pairs.filter((pair) => pair.every((v) => v >= 0)).map(([low, high]) => ({ low, high }));
}
