// The engine as the page sees it: calls that are answered by a Worker, one at a time, and can be cancelled.

import { wasm, worker, examples } from "./assets.js";

const TICK_MS = 250;

function bytesOf(base64) {
    const text = atob(base64);
    const bytes = new Uint8Array(text.length);
    for (let i = 0; i < text.length; i += 1) bytes[i] = text.charCodeAt(i);
    return bytes;
}

/** Puts the lists beside an answer in the place of their indices. */
function withLists(answer, lists) {
    if (answer.hang) answer.hang.connections = lists[answer.hang.connections];
    for (const pattern of answer.patterns ?? []) {
        if (pattern.rowsFlat !== undefined) pattern.rowsFlat = lists[pattern.rowsFlat];
    }
    return answer;
}

/** What the page sends: the sources apart from the other arguments. */
function message(id, call, { sources = [], ...args }) {
    return { id, call, args, sources: sources.map(({ name, text, bytes }) => (bytes ? { name, bytes } : { name, text })) };
}

export function openEngine() {
    const url = URL.createObjectURL(new Blob([worker], { type: "text/javascript" }));
    const bytes = bytesOf(wasm);
    const waiting = [];
    let running = null;
    let port = null;
    let next = 1;

    function start() {
        port = new Worker(url);
        port.onmessage = ({ data }) => finish(data);
        port.onerror = (event) => finish({ id: running?.id, words: `the engine stopped: ${event.message}`, fault: null });
        port.postMessage({ wasm: bytes });
    }

    function run() {
        if (running || waiting.length === 0) return;
        running = waiting.shift();
        const { onTime } = running.options;
        if (onTime) {
            const since = performance.now();
            running.timer = setInterval(() => onTime(performance.now() - since), TICK_MS);
        }
        port.postMessage(message(running.id, running.name, running.args));
    }

    /** Ends the call that runs, and lets the next one run. */
    function settle(how) {
        const call = running;
        running = null;
        clearInterval(call.timer);
        call.options.signal?.removeEventListener("abort", call.cancel);
        how(call);
        run();
    }

    function finish({ id, json, lists, words, fault }) {
        if (!running || (id !== running.id && id !== null && id !== undefined)) return;
        settle((call) => {
            if (json === undefined) call.reject({ words, fault: fault ?? null });
            else call.resolve(withLists(JSON.parse(json), lists));
        });
    }

    function cancel(call) {
        if (call === running) {
            port.terminate();
            start();
            settle(() => call.reject({ cancelled: true }));
        } else {
            const at = waiting.indexOf(call);
            if (at >= 0) waiting.splice(at, 1);
            call.reject({ cancelled: true });
        }
    }

    function call(name, args = {}, options = {}) {
        if (name === "examples") return Promise.resolve(examples);
        return new Promise((resolve, reject) => {
            const asked = { id: next, name, args, options, resolve, reject, timer: 0, cancel: null };
            next += 1;
            asked.cancel = () => cancel(asked);
            if (options.signal?.aborted) {
                reject({ cancelled: true });
                return;
            }
            options.signal?.addEventListener("abort", asked.cancel, { once: true });
            waiting.push(asked);
            run();
        });
    }

    start();
    return { call, close: () => port.terminate() };
}
