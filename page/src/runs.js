// Readings and runs: each in a Worker, the long ones with their time and a way to cancel them.

import { openEngine } from "./engine.js";
import { state, on, emit, chosenPattern, itemNumber } from "./state.js";
import { titleOf } from "./sections.js";
import { later } from "./dom.js";

// Short calls over texts do not wait for a run.
const texts = openEngine();
export const runs = openEngine();

export function ask(name, args) {
    return texts.call(name, args, {});
}

/** A call that may be long, with a way to cancel it. */
export function longCall(name, args, onTime) {
    const control = new AbortController();
    return { answer: runs.call(name, args, { signal: control.signal, onTime }), cancel: () => control.abort() };
}

export const PATTERN_FILE = "pattern";
export const CHANGES_FILE = "changes";

function hangSources() {
    return state.hang.map(({ name, text, bytes }) => (bytes ? { name, bytes } : { name, text }));
}

/** The hang with the chosen pattern, and with changes where they are asked for. */
export function sources({ changes = false } = {}) {
    const pattern = chosenPattern();
    return [
        ...hangSources(),
        ...(pattern ? [{ name: PATTERN_FILE, text: pattern.text }] : []),
        ...(changes && state.changes.trim() ? [{ name: CHANGES_FILE, text: state.changes }] : []),
    ];
}

/** The hang with all patterns and the changes. */
export function allSources() {
    return [
        ...hangSources(),
        ...state.patterns.map((pattern) => ({ name: `pattern ${titleOf(pattern.text)}`, text: pattern.text })),
        ...(state.changes.trim() ? [{ name: CHANGES_FILE, text: state.changes }] : []),
    ];
}

/** What the calls about one pattern take. */
export function patternArgs(more = {}) {
    return { sources: sources(more), pattern: titleOf(chosenPattern().text), plan: state.plan, once: state.once };
}

// The hang is read once more after a reading, where it changed meanwhile.
let isReading = false;
let isStale = false;

async function readHang() {
    if (isReading) {
        isStale = true;
        return;
    }
    isReading = true;
    do {
        isStale = false;
        try {
            state.reading = state.hang.length ? await ask("read", { sources: hangSources() }) : null;
            state.readingFailed = null;
        } catch (failure) {
            state.reading = null;
            state.readingFailed = failure.words ?? String(failure);
        }
    } while (isStale);
    isReading = false;
    emit("reading");
}

/** A lane runs one thing at a time: a new one ends the old. */
function lane(topic, shownAs, engine = () => runs) {
    let current = null;
    function show(value) {
        state[shownAs] = value;
        emit(topic);
    }
    return {
        show,
        get isRunning() {
            return current !== null;
        },
        cancel() {
            if (!current) return;
            const ms = performance.now() - current.began;
            const { control } = current;
            current = null;
            control.abort();
            show({ cancelled: true, ms });
        },
        /** Ends what runs, and shows nothing. */
        drop() {
            current?.control.abort();
            current = null;
            if (state[shownAs]) show(null);
        },
        /** Runs `name` and gives the answer to `use`, whose result is shown. */
        async run(name, args, use) {
            const control = new AbortController();
            current?.control.abort();
            const mine = { control, began: performance.now() };
            current = mine;
            const isOld = () => current !== mine;
            const onTime = (ms) => {
                if (!isOld()) show({ running: true, ms });
            };
            try {
                if (!state[shownAs]?.running) show({ running: true, ms: 0 });
                const answer = await engine().call(name, args, { signal: control.signal, onTime });
                const ms = performance.now() - mine.began;
                if (isOld()) return;
                const value = await use(answer, ms);
                if (isOld()) return;
                current = null;
                show(value);
            } catch (failure) {
                if (isOld()) return;
                current = null;
                const ms = performance.now() - mine.began;
                if (failure.cancelled) show({ cancelled: true, ms });
                else show({ failed: failure.words ?? String(failure), fault: failure.fault ?? null, ms });
            }
        },
    };
}

export const findLane = lane("found", "found");
export const diffLane = lane("differs", "differs");
export const rulesLane = lane("rules", "rules");
export const workLane = lane("work", "work");

// All orderings may take long, and nothing waits for them: they have an engine of their own, once they are asked for.
let comparing = null;
export const orderingsLane = lane("orderings", "orderings", () => (comparing ??= openEngine()));

/** The rows of an answer as item numbers, one row after the other. */
async function listOf(found) {
    const width = found.vertices.length;
    if (found.rowsFlat) return { width, n: found.places, flat: found.rowsFlat };
    await readingSettled();
    const flat = new Uint32Array(found.rows.length * width);
    found.rows.forEach((row, r) => row.forEach((name, v) => (flat[r * width + v] = Math.max(0, itemNumber(name)))));
    return { width, n: found.rows.length, flat };
}

/** Waits until the hang that is shown has been read. */
async function readingSettled() {
    while (isReading) await new Promise((done) => setTimeout(done, 5));
}

async function foundOf(answer, ms) {
    if (answer.errorCount) return { errors: answer.errors, errorCount: answer.errorCount, ms };
    const found = answer.patterns?.[0];
    const error = answer.error ?? found?.error;
    if (error || !found) return { failed: error?.reason ?? "There is no pattern.", fault: error?.line ? error : null, ms };
    return { answer: found, list: await listOf(found), ms };
}

/** Lists the places of the chosen pattern. */
export function find() {
    state.place = -1;
    if (!state.hang.length || !chosenPattern()) {
        findLane.cancel();
        findLane.show(null);
        return;
    }
    const args = { sources: sources(), patterns: null, plan: state.plan, once: state.once };
    findLane.run("find", args, async (answer, ms) => {
        const value = await foundOf(answer, ms);
        if (value.list?.n) state.place = 0;
        return value;
    });
}

/** Finds the places again; how soon depends on how large the text is. */
const soon = later(find, 120);

on("hang", () => {
    readHang();
    soon();
});
on("patterns pattern options", soon);
on("brought", () => {
    soon.cancel();
    readHang();
    find();
});
