// Undo and redo over whole states.

const MOST = 200;
// Strokes that come this soon after each other are undone together.
const TOGETHER = 800;

export function makeHistory() {
    let past = [];
    let future = [];
    let last = { kind: null, at: 0 };
    return {
        get canUndo() {
            return past.length > 0;
        },
        get canRedo() {
            return future.length > 0;
        },
        /** Keeps the state from before a change. Changes of one kind, one soon after the other, are one. */
        push(saved, kind = null) {
            const now = performance.now();
            const isMore = kind !== null && kind === last.kind && now - last.at < TOGETHER && past.length > 0;
            last = { kind, at: now };
            future = [];
            if (isMore) return;
            past.push(saved);
            if (past.length > MOST) past.shift();
        },
        undo(now) {
            if (past.length === 0) return null;
            last = { kind: null, at: 0 };
            future.push(now);
            return past.pop();
        },
        redo(now) {
            if (future.length === 0) return null;
            past.push(now);
            return future.pop();
        },
        clear() {
            past = [];
            future = [];
        },
    };
}
