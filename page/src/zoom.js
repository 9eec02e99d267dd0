// A drawing that is moved by dragging and zoomed by the wheel, two fingers, keys or buttons.

const LEAST = 0.1;
const MOST = 6;

/** Makes the drawing `svg`, whose content is in `group`, movable, or keeps it still where dragging means something else.
    Answers how to show a part of it. */
export function makeZoom(svg, group, { isStill = false } = {}) {
    const reduced = () => matchMedia("(prefers-reduced-motion: reduce)").matches;
    const view = { x: 0, y: 0, scale: 1 };
    const pointers = new Map();
    let frame = 0;

    function apply() {
        group.setAttribute("transform", `translate(${view.x} ${view.y}) scale(${view.scale})`);
    }

    const within = (scale) => Math.max(LEAST, Math.min(MOST, scale));

    /** Zooms about a point of the element. */
    function zoomAt(x, y, factor) {
        cancelAnimationFrame(frame);
        const scale = within(view.scale * factor);
        view.x = x - ((x - view.x) * scale) / view.scale;
        view.y = y - ((y - view.y) * scale) / view.scale;
        view.scale = scale;
        apply();
    }

    function moveBy(dx, dy) {
        cancelAnimationFrame(frame);
        view.x += dx;
        view.y += dy;
        apply();
    }

    /** Moves to a view, in a few frames where motion is welcome. */
    function moveTo(target, isSmooth) {
        cancelAnimationFrame(frame);
        if (!isSmooth || reduced()) {
            Object.assign(view, target);
            apply();
            return;
        }
        const from = { ...view };
        const began = performance.now();
        const step = (now) => {
            const t = Math.min(1, Math.max(0, now - began) / 220);
            const ease = t * (2 - t);
            for (const key of ["x", "y", "scale"]) view[key] = from[key] + (target[key] - from[key]) * ease;
            apply();
            if (t < 1) frame = requestAnimationFrame(step);
        };
        frame = requestAnimationFrame(step);
    }

    /** Shows a rectangle of the drawing in the middle, no larger than it is. */
    function show({ x, y, width, height }, { most = 1, isSmooth = false, least = LEAST } = {}) {
        const { clientWidth: w, clientHeight: h } = svg;
        if (!w || !h) return;
        const scale = within(Math.max(least, Math.min(most, w / (width + 24), h / (height + 24))));
        moveTo({ scale, x: w / 2 - (x + width / 2) * scale, y: h / 2 - (y + height / 2) * scale }, isSmooth);
    }

    if (isStill) return { show, moveBy, view };

    const local = (event) => {
        const box = svg.getBoundingClientRect();
        return { x: event.clientX - box.left, y: event.clientY - box.top };
    };

    svg.addEventListener("wheel", (event) => {
        event.preventDefault();
        const { x, y } = local(event);
        zoomAt(x, y, Math.exp(-event.deltaY * (event.ctrlKey ? 0.01 : 0.0015)));
    }, { passive: false });

    svg.addEventListener("pointerdown", (event) => {
        if (event.pointerType === "mouse" && event.button !== 0) return;
        pointers.set(event.pointerId, local(event));
        try {
            svg.setPointerCapture(event.pointerId);
        } catch {
            // A pointer that is gone already needs no capture.
        }
    });
    svg.addEventListener("pointermove", (event) => {
        const before = pointers.get(event.pointerId);
        if (!before) return;
        const now = local(event);
        if (pointers.size === 1) {
            moveBy(now.x - before.x, now.y - before.y);
        } else if (pointers.size === 2) {
            const [other] = [...pointers].filter(([id]) => id !== event.pointerId).map(([, point]) => point);
            const was = Math.hypot(before.x - other.x, before.y - other.y);
            const is = Math.hypot(now.x - other.x, now.y - other.y);
            moveBy((now.x - before.x) / 2, (now.y - before.y) / 2);
            if (was > 0) zoomAt((now.x + other.x) / 2, (now.y + other.y) / 2, is / was);
        }
        pointers.set(event.pointerId, now);
    });
    for (const end of ["pointerup", "pointercancel"]) svg.addEventListener(end, (event) => pointers.delete(event.pointerId));

    svg.addEventListener("keydown", (event) => {
        const { clientWidth: w, clientHeight: h } = svg;
        const moves = { ArrowLeft: [40, 0], ArrowRight: [-40, 0], ArrowUp: [0, 40], ArrowDown: [0, -40] };
        if (moves[event.key] && event.target === svg) moveBy(...moves[event.key]);
        else if (event.key === "+" || event.key === "=") zoomAt(w / 2, h / 2, 1.25);
        else if (event.key === "-") zoomAt(w / 2, h / 2, 0.8);
        else return;
        event.preventDefault();
    });

    return { show, view, zoomBy: (factor) => zoomAt(svg.clientWidth / 2, svg.clientHeight / 2, factor) };
}
