// The parts of the page that take turns: left hang, pattern and rules, right places, changes and work; on a phone one at a time.

import { byId } from "./dom.js";
import { emit } from "./state.js";

const SIDE = { hang: "left", pattern: "left", rules: "left", places: "right", changes: "right", work: "right" };
const shownTab = { left: "pattern", right: "places" };

const isPhone = () => matchMedia("(max-width: 720px)").matches;

/** A part is in sight. */
export function isShown(name) {
    const isChosen = shownTab[SIDE[name]] === name;
    return isChosen && (!isPhone() || document.body.dataset.side === SIDE[name]);
}

function draw() {
    for (const [name, side] of Object.entries(SIDE)) {
        const is = shownTab[side] === name;
        byId(name).hidden = !is;
        const tab = byId(`tab-${name}`);
        tab.setAttribute("aria-selected", String(is));
        tab.tabIndex = is ? 0 : -1;
    }
    const now = shownTab[document.body.dataset.side];
    for (const button of byId("thumbs").children) {
        const is = button.dataset.tab === now || (button.dataset.tab === "places" && SIDE[now] === "right");
        if (is) button.setAttribute("aria-current", "page");
        else button.removeAttribute("aria-current");
    }
}

/** Has a part shown on its side without going there. */
export function preferTab(name) {
    shownTab[SIDE[name]] = name;
    draw();
}

export function showTab(name) {
    shownTab[SIDE[name]] = name;
    document.body.dataset.side = SIDE[name];
    draw();
    emit("tab", name);
}

export function startTabs() {
    document.body.dataset.side = "left";
    for (const name of Object.keys(SIDE)) byId(`tab-${name}`).addEventListener("click", () => showTab(name));
    for (const list of document.querySelectorAll('[role="tablist"]')) {
        list.addEventListener("keydown", (event) => {
            const tabs = [...list.querySelectorAll('[role="tab"]')];
            const step = { ArrowRight: 1, ArrowLeft: -1 }[event.key];
            if (!step) return;
            event.preventDefault();
            const next = tabs[(tabs.indexOf(document.activeElement) + step + tabs.length) % tabs.length];
            showTab(next.id.slice("tab-".length));
            next.focus();
        });
    }
    for (const button of byId("thumbs").children) button.addEventListener("click", () => showTab(button.dataset.tab));
    draw();
}
