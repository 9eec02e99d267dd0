// window.rizhavaan: the engine for scripts, with the answers of the program.

import { quote } from "./words.js";

/** An error with a sentence, and the faults of the text where it has some. */
function failed(words, errors = []) {
    const error = new Error(words);
    error.errors = errors;
    return error;
}

function sentence({ line, file, reason }) {
    return line === undefined ? reason : `${file}, line ${line}: ${reason}`;
}

/** All rows by names, however many. */
function named({ rowsFlat, width, ...found }, names) {
    if (!rowsFlat) return { width, ...found };
    const rows = [];
    for (let at = 0; at < rowsFlat.length; at += width) {
        rows.push(Array.from(rowsFlat.subarray(at, at + width), (item) => names[item]));
    }
    return { ...found, rows };
}

/** A pattern's object as `find --json` has it, which knows no 'why'. */
function printed({ why, width, ...found }) {
    return found;
}

async function find(engine, text, { plan = "best", once = false, patterns = null, memory, signal, onTime } = {}) {
    const sources = typeof text === "string" ? [{ name: "text", text }] : text;
    const asked = { sources, plan, once, patterns, memory };
    const options = { signal, onTime };
    let answer;
    let names = null;
    try {
        answer = await engine.call("find", asked, options);
        if (answer.patterns?.some((found) => found.rowsFlat)) {
            names = (await engine.call("read", { sources }, options)).hang.items.map((item) => item.name);
        }
    } catch (no) {
        throw failed(no.cancelled ? "the run was cancelled" : no.words);
    }
    if (answer.errorCount > 0) throw failed(sentence(answer.errors[0]), answer.errors);
    const wrong = answer.error ?? answer.patterns.find((found) => found.error)?.error;
    if (wrong) throw failed(sentence(wrong), wrong.line === undefined ? [] : [wrong]);
    const all = answer.patterns.map((found) => printed(named(found, names)));
    return all.length === 1 ? all[0] : { patterns: all };
}

export function publish(engine) {
    window.rizhavaan = Object.freeze({ find: (text, options) => find(engine, text, options), engine, quote });
}
