// What fingers, pointer and keys do in the drawing of a pattern.

import { s } from "./dom.js";

// A pointer that went less far has tapped.
const TAP = 9;

/** `told` has the calls: add(point), select(what), connect(from, to), connectNew(from, point), connecting(v), move(v, point, isLast),
    moveBy(v, dx, dy), pan(dx, dy), remove(what). `isMoving()` tells whether a drag moves an item instead of joining it to another. */
export function makeGestures(svg, group, told, isMoving) {
    let drag = null;
    let connecting = null;

    /** A point of the screen in the drawing. */
    const inside = (event) => {
        const matrix = group.getScreenCTM();
        const point = new DOMPoint(event.clientX, event.clientY).matrixTransform(matrix.inverse());
        return { x: point.x, y: point.y };
    };

    const whatIs = (node) => {
        const part = node?.closest?.("[data-vertex],[data-edge],[data-pair]");
        if (!part || !svg.contains(part)) return null;
        const kind = ["vertex", "edge", "pair"].find((each) => part.dataset[each] !== undefined);
        return { [kind]: Number(part.dataset[kind]) };
    };

    const under = (event) => whatIs(document.elementFromPoint(event.clientX, event.clientY));

    svg.addEventListener("pointerdown", (event) => {
        if (drag || (event.pointerType === "mouse" && event.button !== 0)) return;
        const { pointerId: id, clientX: x, clientY: y } = event;
        drag = { id, x, y, what: whatIs(event.target), point: inside(event), isFar: false, rubber: null };
        try {
            svg.setPointerCapture(event.pointerId);
        } catch {
            // A pointer that is gone already needs no capture.
        }
    });

    svg.addEventListener("pointermove", (event) => {
        if (!drag || event.pointerId !== drag.id) return;
        if (Math.hypot(event.clientX - drag.x, event.clientY - drag.y) > TAP) drag.isFar = true;
        const from = drag.what?.vertex;
        if (drag.isFar && !drag.what) {
            told.pan(event.clientX - (drag.lastX ?? drag.x), event.clientY - (drag.lastY ?? drag.y));
            [drag.lastX, drag.lastY] = [event.clientX, event.clientY];
        }
        if (!drag.isFar || from === undefined) return;
        const point = inside(event);
        if (isMoving()) {
            told.move(from, point, false);
            return;
        }
        drag.rubber ??= group.appendChild(s("path", { class: "rubber" }));
        drag.rubber.setAttribute("d", `M${drag.point.x} ${drag.point.y} L${point.x} ${point.y}`);
        const over = under(event)?.vertex;
        for (const node of group.querySelectorAll("[data-vertex]")) {
            node.classList.toggle("target", Number(node.dataset.vertex) === over && over !== from);
        }
    });

    svg.addEventListener("pointerup", (event) => {
        if (!drag || event.pointerId !== drag.id) return;
        const { what, isFar, rubber } = drag;
        drag = null;
        rubber?.remove();
        const point = inside(event);
        if (!isFar) {
            if (what?.vertex !== undefined && connecting !== null) finish(what.vertex);
            else if (what) told.select(what);
            else told.add(point);
        } else if (what?.vertex !== undefined) {
            const over = under(event)?.vertex;
            if (isMoving()) told.move(what.vertex, point, true);
            else if (over === what.vertex) told.select(what);
            else if (over !== undefined) told.connect(what.vertex, over);
            else if (svg.contains(document.elementFromPoint(event.clientX, event.clientY))) told.connectNew(what.vertex, point);
        }
    });

    svg.addEventListener("pointercancel", () => {
        drag?.rubber?.remove();
        drag = null;
    });

    /** Ends a connection that was begun by key or button. */
    function finish(to) {
        const from = connecting;
        connecting = null;
        if (from !== to) told.connect(from, to);
        else told.select({ vertex: to });
    }

    svg.addEventListener("keydown", (event) => {
        const what = whatIs(event.target);
        if (event.ctrlKey || event.metaKey || event.altKey) return;
        const moves = { ArrowLeft: [-16, 0], ArrowRight: [16, 0], ArrowUp: [0, -16], ArrowDown: [0, 16] };
        if (event.key === "Escape" && connecting !== null) {
            connecting = null;
            told.select(null);
        } else if ((event.key === "Delete" || event.key === "Backspace") && what) {
            told.remove(what);
        } else if (event.key === "n" || event.key === "Insert") {
            told.add(null);
        } else if (event.key === "c" && what?.vertex !== undefined) {
            connecting = what.vertex;
            told.connecting(what.vertex);
        } else if ((event.key === "Enter" || event.key === " ") && what) {
            if (connecting !== null && what.vertex !== undefined) finish(what.vertex);
            else told.select(what, event.key === "Enter");
        } else if (moves[event.key] && what?.vertex !== undefined) {
            told.moveBy(what.vertex, ...moves[event.key]);
        } else {
            return;
        }
        event.preventDefault();
    });

    return {
        get connecting() {
            return connecting;
        },
    };
}
