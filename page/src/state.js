// What the page holds, and who is told when a part of it changes.

export const state = {
    title: "",
    from: "",
    hang: [], // sources: { name, text }, or { name, text, bytes } where the bytes are no text
    patterns: [], // { text, spots, model }: a [query] with its [plan]; where its vertices are drawn; the drawing
    chosen: 0,
    changes: "",
    once: false,
    plan: "best",

    // What was made of it.
    reading: null, // the answer of `read` for the hang, or null
    readingFailed: null, // a sentence where there was no answer
    found: null, // see runs.js
    orderings: null, // all orderings of the pattern, compared
    place: -1, // the number of the chosen place, in the list's own order
};

const listeners = new Map();

/** Has `f` called when something of a topic changed. */
export function on(topics, f) {
    for (const topic of topics.split(" ")) {
        if (!listeners.has(topic)) listeners.set(topic, []);
        listeners.get(topic).push(f);
    }
}

export function emit(topic, detail) {
    for (const f of listeners.get(topic) ?? []) f(detail);
}

export function chosenPattern() {
    return state.patterns[state.chosen] ?? null;
}

/** The kinds of the hang, as the calls want them; none known without a hang. */
export function kindsOfHang() {
    return state.reading?.kinds;
}

/** The number of an item by its name, or -1. */
export function itemNumber(name) {
    const hang = hangRead();
    if (!hang) return -1;
    hang.numbers ??= new Map(hang.items.map((item, i) => [item.name, i]));
    return hang.numbers.get(name) ?? -1;
}

/** The hang of the last reading, or null. */
export function hangRead() {
    return state.reading?.hang ?? null;
}
