// A list of any length of which only what is seen is in the document.

import { h } from "./dom.js";

// Browsers show no element that is higher than some 16 million pixels; longer lists are scrolled in proportion.
const HIGHEST = 8_000_000;

/** A list whose rows are `height` high. `row(i)` makes row i; `onChoose(i)` is told which row was tapped or reached by keys. */
export function makeRolling({ id, label, height, row, onChoose }) {
    const space = h("div", { class: "space", role: "presentation" });
    const box = h("div", { id, class: "rolling", role: "listbox", tabindex: "0", "aria-label": label }, space);
    let n = 0;
    let chosen = -1;
    const rows = new Map();

    const whole = () => Math.min(n * height, HIGHEST);
    /** The pixel at which the list is scrolled, as if it were as high as all its rows. */
    const position = () => {
        const room = whole() - box.clientHeight;
        return room <= 0 ? 0 : Math.min(1, box.scrollTop / room) * Math.max(0, n * height - box.clientHeight);
    };

    function draw() {
        const top = position();
        const first = Math.max(0, Math.floor(top / height) - 4);
        const last = Math.min(n, Math.ceil((top + box.clientHeight) / height) + 4);
        for (const [i, node] of rows) {
            if (i < first || i >= last) {
                node.remove();
                rows.delete(i);
            }
        }
        for (let i = first; i < last; i += 1) {
            if (!rows.has(i)) {
                const node = row(i);
                node.id = `${id}-${i}`;
                node.setAttribute("role", "option");
                node.setAttribute("aria-setsize", n);
                node.setAttribute("aria-posinset", i + 1);
                node.dataset.row = i;
                rows.set(i, node);
                space.append(node);
            }
            const node = rows.get(i);
            node.style.top = `${i * height - top + box.scrollTop}px`;
            node.setAttribute("aria-selected", String(i === chosen));
        }
        if (rows.has(chosen)) box.setAttribute("aria-activedescendant", `${id}-${chosen}`);
        else box.removeAttribute("aria-activedescendant");
    }

    function scrollTo(i) {
        const room = whole() - box.clientHeight;
        const full = Math.max(1, n * height - box.clientHeight);
        const top = position();
        let wanted = top;
        if (i * height < top) wanted = i * height;
        if ((i + 1) * height > top + box.clientHeight) wanted = (i + 1) * height - box.clientHeight;
        if (wanted !== top && room > 0) box.scrollTop = (wanted / full) * room;
    }

    function choose(i, isTold = true) {
        chosen = i;
        if (i >= 0) scrollTo(i);
        draw();
        if (isTold && i >= 0) onChoose(i);
    }

    box.addEventListener("scroll", draw);
    box.addEventListener("click", (event) => {
        const node = event.target.closest("[data-row]");
        if (node) choose(Number(node.dataset.row));
    });
    box.addEventListener("keydown", (event) => {
        const page = Math.max(1, Math.floor(box.clientHeight / height) - 1);
        const step = { ArrowDown: 1, ArrowUp: -1, PageDown: page, PageUp: -page, Home: -Infinity, End: Infinity }[event.key];
        if (step === undefined || n === 0) return;
        event.preventDefault();
        choose(Math.max(0, Math.min(n - 1, chosen + step)));
    });
    new ResizeObserver(draw).observe(box);

    return {
        node: box,
        choose,
        get chosen() {
            return chosen;
        },
        /** Shows another list. */
        set(length, choice = -1) {
            n = length;
            for (const node of rows.values()) node.remove();
            rows.clear();
            space.style.height = `${whole()}px`;
            chosen = choice;
            if (choice < 0) box.scrollTop = 0;
            else scrollTo(choice);
            draw();
        },
        draw,
    };
}
