// What runs in the Worker: the WebAssembly module behind messages. The page sends { wasm } once, then { id, call, args, sources }
// one after the other; the answer is { id, json, lists }, or { id, words, fault } where there is none.

let compiled = null;
let engine = null;

const encoder = new TextEncoder();
const decoder = new TextDecoder();

/** Bytes into the module, into a buffer that it reserves. */
function lend(...parts) {
    const length = parts.reduce((sum, part) => sum + part.length, 0);
    let at = engine.reserve(length) >>> 0;
    for (const part of parts) {
        new Uint8Array(engine.memory.buffer, at, part.length).set(part);
        at += part.length;
    }
}

function text(pointer, length) {
    return decoder.decode(new Uint8Array(engine.memory.buffer, pointer >>> 0, length >>> 0));
}

/** Copies of the lists beside the answer, which the page takes over. */
function lists() {
    const all = [];
    for (let i = 0; i < engine.lists(); i += 1) {
        all.push(new Uint32Array(engine.memory.buffer, engine.list_pointer(i) >>> 0, engine.list_length(i) >>> 0).slice());
    }
    return all;
}

function answer({ id, call, args, sources }) {
    for (const source of sources) {
        const name = encoder.encode(source.name);
        const bytes = source.bytes ?? encoder.encode(source.text);
        lend(name, bytes);
        engine.source(name.length);
    }
    lend(encoder.encode(JSON.stringify({ call, args })));
    const status = engine.call();
    const json = text(engine.answer_pointer(), engine.answer_length());
    return status === 0 ? { id, json, lists: lists() } : { id, ...JSON.parse(json) };
}

/** Why the module stopped in the middle of a call, in words. */
function why(error) {
    const panic = engine ? text(engine.panic_pointer(), engine.panic_length()) : "";
    if (error instanceof RangeError || engine?.memory_ended() || panic.includes("capacity overflow")) {
        const size = engine ? Math.round(engine.memory.buffer.byteLength / 1e6) : 0;
        return `memory ended: ${size} MB were in use and the browser gives no more, so there is no list. ` +
            "Ask for less: name kinds or days, or take mirror images once";
    }
    return `the page failed, so there is no list: ${panic || error.message}`;
}

/** A module that stopped holds half a call, and a large memory never shrinks: the next call gets a new one. */
const KEPT_BYTES = 256e6;

async function fresh() {
    engine = (await WebAssembly.instantiate(compiled, {})).exports;
}

async function told(message) {
    if (message.wasm) {
        compiled = await WebAssembly.compile(message.wasm);
        await fresh();
        return;
    }
    let reply;
    try {
        if (!engine) await fresh();
        reply = answer(message);
        if (engine.memory.buffer.byteLength > KEPT_BYTES) engine = null;
    } catch (error) {
        reply = { id: message.id, words: why(error), fault: null };
        engine = null;
    }
    self.postMessage(reply, (reply.lists ?? []).map((list) => list.buffer));
}

// One message after the other, in the order of their coming.
let last = Promise.resolve();
self.onmessage = (event) => {
    last = last.then(() => told(event.data)).catch((error) => {
        self.postMessage({ id: event.data.id ?? null, words: `the engine does not start: ${error.message}`, fault: null });
    });
};
