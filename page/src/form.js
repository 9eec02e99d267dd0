// What is chosen in the drawing of a pattern, as fields: an item, a connection, or the pattern itself.

import { h, fill, field, choice } from "./dom.js";
import { kindWords } from "./kinds.js";
import { changeEdge, connect, removeVertex, setKind, vertexName } from "./model.js";

const ANY = "any";

/** The kinds to choose from; a value is the kind's place in the list, so that numbers and names differ. */
function kindChoice(label, kinds, kind, used, onChange) {
    const known = [...(kinds ?? [])];
    for (const other of [kind, ...used]) if (other !== null && other !== undefined && !known.includes(other)) known.push(other);
    const options = [[ANY, "any"], ...known.map((each, i) => [String(i), kindWords(each)])];
    const value = kind === null ? ANY : String(known.indexOf(kind));
    const chosen = ({ target }) => onChange(target.value === ANY ? null : known[Number(target.value)], target);
    return field(label, choice({ "data-key": `kind-${label}`, onchange: chosen }, options, value));
}

/** A day as a date field; a day that the text has as a number stands as that. */
function dayField(label, key, day, onChange) {
    const isDate = day === null || typeof day === "string";
    return field(label, h("input", {
        ...(isDate ? { type: "date", min: "2000-01-02", max: "2179-06-06" } : { type: "number", min: "0", max: "65535" }),
        value: day ?? "",
        "data-key": key,
        onchange: (event) => onChange(event.target.value === "" ? null : isDate ? event.target.value : Number(event.target.value)),
    }));
}

const usedKinds = (list) => [...new Set(list.map((each) => each.kind).filter((kind) => kind !== null))];

function vertexForm(model, v, kinds, told) {
    const vertex = model.vertices[v];
    const days = vertex.days ?? { first: null, last: null };
    const setDays = (change) => told.edit((m) => {
        const next = { ...days, ...change };
        m.vertices[v].days = next.first === null && next.last === null ? null : next;
    });
    const others = model.vertices.map((_, other) => other).filter((other) => other !== v);
    const names = others.map((other) => [String(other), vertexName(model, other)]);
    const to = choice({ "data-key": "connect-to", "aria-label": "Connect to" }, names, String(others[0]));
    const join = (isFrom) => told.edit((m) => {
        const other = Number(to.value);
        return told.connected(connect(m, isFrom ? v : other, isFrom ? other : v, told.lastKind()));
    });
    return [
        h("div", { class: "fields" },
            field("Name", h("input", {
                type: "text", value: vertex.name ?? "", "data-key": "name", autocomplete: "off", autocapitalize: "off",
                oninput: (event) => told.edit((m) => (m.vertices[v].name = event.target.value.trim() || null), { keepsForm: true }),
            })),
            kindChoice("Kind", kinds?.items, vertex.kind, usedKinds(model.vertices), (kind, select) => {
                // The field stays, so that its keys go on; a name that was made of the kind follows.
                told.remember(kind);
                told.edit((m) => setKind(m, v, kind), { keepsForm: true });
                select.closest(".fields").querySelector("[data-key=name]").value = told.model().vertices[v].name ?? "";
            }),
            dayField("Inspected from", "first", days.first, (first) => setDays({ first })),
            dayField("Inspected until", "last", days.last, (last) => setDays({ last }))),
        days.first === null && days.last !== null
            ? h("p", { class: "hint" }, "An item without a day counts as inspected before every date.") : null,
        others.length ? h("div", { class: "line-up" }, field("Connect", to),
            h("button", { type: "button", "data-key": "connect-down", onclick: () => join(true) }, "to it ↓"),
            h("button", { type: "button", "data-key": "connect-up", onclick: () => join(false) }, "from it ↑")) : null,
        h("button", { type: "button", "data-key": "remove", onclick: () => told.remove({ vertex: v }) }, "Remove item"),
    ];
}

function edgeForm(model, e, kinds, told) {
    const edge = model.edges[e];
    const change = (what, more) => told.edit((m) => told.say(changeEdge(m, e, what)), more);
    return [
        h("p", { class: "hint" }, `${vertexName(model, edge.from)} → ${vertexName(model, edge.to)}`),
        h("div", { class: "fields" }, kindChoice("Connection", kinds?.connections, edge.kind, usedKinds(model.edges), (kind) => {
            change({ kind }, { keepsForm: true });
            if (told.model().edges[e].kind === kind) told.rememberEdge(kind);
            else told.select({ edge: e });
        })),
        h("div", { class: "line-up" },
            h("button", { type: "button", "data-key": "turn", onclick: () => change({ from: edge.to, to: edge.from }) }, "Turn round"),
            h("button", { type: "button", "data-key": "remove", onclick: () => told.remove({ edge: e }) }, "Remove connection")),
    ];
}

function pairForm(model, p, told) {
    const [low, high] = [model.pairs[p].low, model.pairs[p].high].map((v) => vertexName(model, v));
    return [
        h("p", { class: "hint" }, `The item of ${low} stands before that of ${high} in the hang: of the two orders, one is listed.`),
        h("button", { type: "button", "data-key": "remove", onclick: () => told.remove({ pair: p }) }, "Remove this order"),
    ];
}

function patternForm(model, told) {
    const expect = model.expect ?? { is: "none", count: 0 };
    const apart = { keepsForm: true, keepsPlan: true };
    const setExpect = (change) => told.edit((m) => {
        const next = { ...expect, ...change };
        m.expect = next.is === "none" ? null : { is: next.is, count: next.count };
    }, { keepsPlan: true });
    const is = [["none", "anything"], ["exactly", "exactly"], ["at least", "at least"], ["at most", "at most"]];
    return [
        h("div", { class: "fields" },
            field("Name of the pattern", h("input", {
                type: "text", value: model.name ?? "", "data-key": "pattern-name", autocomplete: "off",
                oninput: (event) => told.edit((m) => (m.name = event.target.value.trim() || null), apart),
            })),
            field("What it means", h("input", {
                type: "text", value: model.sentence ?? "", "data-key": "sentence",
                oninput: (event) => told.edit((m) => (m.sentence = event.target.value.trim() || null), apart),
            })),
            field("Expected places",
                choice({ "data-key": "expect", onchange: (event) => setExpect({ is: event.target.value }) }, is, expect.is)),
            expect.is === "none" ? null : field("How many", h("input", {
                type: "number", min: "0", step: "1", value: String(expect.count), "data-key": "expect-count",
                onchange: (event) => setExpect({ count: Math.max(0, Math.floor(Number(event.target.value) || 0)) }),
            }))),
        h("button", { type: "button", id: "remove-pattern", "data-key": "remove-pattern", onclick: told.removePattern }, "Remove pattern"),
    ];
}

/** Shows the fields of what is chosen. The field that had the focus has it again. */
export function drawForm(node, model, selected, kinds, told) {
    const key = node.contains(document.activeElement) ? document.activeElement.dataset.key : null;
    const content = !model ? []
        : selected?.vertex !== undefined ? vertexForm(model, selected.vertex, kinds, told)
        : selected?.edge !== undefined ? edgeForm(model, selected.edge, kinds, told)
        : selected?.pair !== undefined ? pairForm(model, selected.pair, told)
        : selected?.pattern ? patternForm(model, told) : [];
    fill(node, content);
    if (key) node.querySelector(`[data-key="${key}"]`)?.focus();
}

/** Takes a part out of a pattern. */
export function without(model, what) {
    if (what.vertex !== undefined) removeVertex(model, what.vertex);
    else if (what.edge !== undefined) model.edges.splice(what.edge, 1);
    else if (what.pair !== undefined) model.pairs.splice(what.pair, 1);
}
