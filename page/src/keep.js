// The whole state as text: in the browser's storage where it allows, in the address, and back.

import { state, on, emit } from "./state.js";
import { later } from "./dom.js";

const KEY = "rizhavaan";
const FIELDS = ["title", "from", "hang", "patterns", "chosen", "changes", "once", "plan"];

let isKept = null;

/** What is kept; bytes that are no text are not. */
function packed() {
    const saved = Object.fromEntries(FIELDS.map((field) => [field, state[field]]));
    saved.hang = state.hang.map(({ name, text }) => ({ name, text }));
    return JSON.stringify(saved);
}

const isText = (value) => typeof value === "string";

/** Takes in what was kept, if it is that. */
function unpacked(json) {
    const saved = JSON.parse(json);
    const isSound = Array.isArray(saved.hang) && saved.hang.every((source) => isText(source?.name) && isText(source?.text))
        && Array.isArray(saved.patterns) && saved.patterns.every((pattern) => isText(pattern?.text));
    if (!isSound) return false;
    Object.assign(state, {
        title: isText(saved.title) ? saved.title : "",
        from: isText(saved.from) ? saved.from : "",
        hang: saved.hang.map(({ name, text }) => ({ name, text })),
        patterns: saved.patterns.map(({ text, spots, model }) => ({ text, spots, model })),
        chosen: Number.isInteger(saved.chosen) ? Math.max(0, Math.min(saved.chosen, saved.patterns.length - 1)) : 0,
        changes: isText(saved.changes) ? saved.changes : "",
        once: saved.once === true,
        plan: ["best", "picked", "drawn", "cheapest", "given"].includes(saved.plan) ? saved.plan : "best",
    });
    return true;
}

function store() {
    try {
        if (state.hang.length || state.patterns.length) localStorage.setItem(KEY, packed());
        else localStorage.removeItem(KEY);
        isKept = true;
    } catch {
        isKept = false;
    }
    emit("kept", isKept);
}

/** Whether the last state was kept in this browser. */
export const keptHere = () => isKept;

export function recall() {
    try {
        const json = localStorage.getItem(KEY);
        return json !== null && unpacked(json);
    } catch {
        return false;
    }
}

async function through(stream, bytes) {
    const blob = new Blob([bytes]);
    return new Uint8Array(await new Response(blob.stream().pipeThrough(stream)).arrayBuffer());
}

function toBase64(bytes) {
    let text = "";
    for (let i = 0; i < bytes.length; i += 0x8000) text += String.fromCharCode(...bytes.subarray(i, i + 0x8000));
    return btoa(text).replaceAll("+", "-").replaceAll("/", "_").replaceAll("=", "");
}

function fromBase64(text) {
    return Uint8Array.from(atob(text.replaceAll("-", "+").replaceAll("_", "/")), (c) => c.charCodeAt(0));
}

/** The whole state for the address, behind its '#'. */
export async function addressPart() {
    const bytes = await through(new CompressionStream("deflate-raw"), new TextEncoder().encode(packed()));
    return `all=${toBase64(bytes)}`;
}

/** Takes in a state from the address. */
export async function fromAddress(hash) {
    const part = /^#all=([\w-]+)$/.exec(hash);
    if (!part) return false;
    try {
        const bytes = await through(new DecompressionStream("deflate-raw"), fromBase64(part[1]));
        return unpacked(new TextDecoder().decode(bytes));
    } catch {
        return false;
    }
}

export function startKeeping() {
    const soon = later(store, 400);
    on("hang brought pattern patterns options changed titled", soon);
    addEventListener("pagehide", store);
}
