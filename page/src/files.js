// Bringing a hang: files chosen or dropped, a text pasted, an example.

import { state, emit } from "./state.js";
import { parted, titleOf } from "./sections.js";
import { ask, CHANGES_FILE, PATTERN_FILE } from "./runs.js";

const isTable = (name) => /\.(csv|tsv|tab)$/i.test(name);

/** A file's bytes as text; where they are none the engine is given the bytes and says so. */
function decoded(name, bytes) {
    try {
        return { name, text: new TextDecoder("utf-8", { fatal: true }).decode(bytes) };
    } catch {
        return { name, text: new TextDecoder().decode(bytes), bytes };
    }
}

/** Each source has a name of its own, by which faults are told apart. */
function apart(sources) {
    const taken = new Set([PATTERN_FILE, CHANGES_FILE]);
    return sources.map((source) => {
        const [, stem, ending] = /^(.*?)(\.[^.]*)?$/.exec(source.name);
        let { name } = source;
        for (let n = 2; taken.has(name); n += 1) name = `${stem} (${n})${ending ?? ""}`;
        taken.add(name);
        return { ...source, name };
    });
}

/** Which of hang, patterns and changes sources bring. */
function sorted(sources) {
    const brought = { hang: [], patterns: [], changes: "" };
    for (const source of apart(sources)) {
        if (isTable(source.name) || source.bytes) {
            brought.hang.push(source);
            continue;
        }
        const parts = parted(source.text.replace(/\r\n?/g, "\n"));
        if (parts.hang.trim()) brought.hang.push({ name: source.name, text: parts.hang });
        brought.patterns.push(...parts.patterns.map((text) => ({ text })));
        brought.changes += parts.changes;
    }
    return brought;
}

/** Patterns with those of the same name replaced by the new ones. */
function merged(old, fresh) {
    const names = new Set(fresh.map((pattern) => titleOf(pattern.text)));
    return [...old.filter((pattern) => !names.has(titleOf(pattern.text))), ...fresh];
}

/** Takes sources in: what they bring of a hang, of patterns and of changes replaces what is there of it. A pattern or changes
    alone leave the hang as it is. */
export function bring(sources, title) {
    const brought = sorted(sources);
    if (brought.hang.length) {
        const isSecondTable = brought.hang.every((source) => isTable(source.name)) && brought.hang.length === 1
            && state.hang.length === 1 && isTable(state.hang[0].name) && state.hang[0].name !== brought.hang[0].name;
        state.hang = isSecondTable ? [...state.hang, ...brought.hang] : brought.hang;
        state.title = title ?? nameOf(brought.hang[0].name);
        state.from = state.hang.map((source) => source.name).join(" and ");
        if (brought.patterns.length) state.patterns = brought.patterns;
        if (!isSecondTable) state.changes = brought.changes;
        if (brought.patterns.length) state.chosen = 0;
    } else {
        if (brought.patterns.length) {
            state.patterns = merged(state.patterns, brought.patterns);
            state.chosen = state.patterns.indexOf(brought.patterns[0]);
        }
        if (brought.changes) state.changes = brought.changes;
    }
    emit("brought");
    return brought;
}

function nameOf(file) {
    return file.replace(/\.[a-z]+$/i, "").replace(/[-_]+/g, " ").replace(/^./, (c) => c.toUpperCase());
}

export async function bringFiles(files) {
    const read = async (file) => decoded(file.name, new Uint8Array(await file.arrayBuffer()));
    const sources = await Promise.all([...files].map(read));
    return bring(sources);
}

let known = null;

export async function examples() {
    known ??= ask("examples", {});
    return known;
}

export async function bringExample(name) {
    const example = (await examples()).find((each) => each.name === name);
    if (!example) return false;
    state.patterns = [];
    state.changes = "";
    bring([{ name: `${example.name}.txt`, text: example.text }], example.title);
    return true;
}

/** Only the changes of a file that was loaded as such. */
export async function changesOf(file) {
    const { text } = decoded(file.name, new Uint8Array(await file.arrayBuffer()));
    const { changes } = parted(text);
    return changes || `[changes]\n${text}`;
}

/** Starts with nothing. */
export function clear() {
    Object.assign(state, { title: "", from: "", hang: [], patterns: [], chosen: 0, changes: "" });
    emit("brought");
}
