// Where the page begins: its parts are started, and what was kept or stands in the address is taken in.

import { publish } from "./api.js";
import { byId, h, fill, shown, count } from "./dom.js";
import { state, on, emit } from "./state.js";
import { runs } from "./runs.js";
import { bring, bringExample, bringFiles, clear, examples } from "./files.js";
import { startTabs, preferTab, showTab } from "./tabs.js";
import { startHang } from "./hang.js";
import { startPattern } from "./pattern.js";
import { startPlaces } from "./places.js";
import { startPicture } from "./picture.js";
import { startChanges } from "./changes.js";
import { startRules } from "./rules.js";
import { startWork } from "./work.js";
import { startTake } from "./take.js";
import { fromAddress, recall, startKeeping } from "./keep.js";

function drawHead() {
    const summary = state.reading?.summary;
    byId("title").textContent = state.title || "Rizhavaan";
    document.title = state.title ? `${state.title} – Rizhavaan` : "Rizhavaan";
    const parts = summary ? [count(summary.items, "item"), count(summary.connections, "connection")] : [];
    if (state.from) parts.push(`opened from ${state.from}`);
    byId("about").textContent = state.hang.length ? parts.join(" · ") : "";
}

/** After something was brought: where to look. */
function land(brought) {
    if (state.patterns.length) preferTab("pattern");
    if (brought?.hang?.length === 0 && !brought.patterns.length && brought.changes) showTab("changes");
    else if (state.patterns.length) showTab("places");
    else showTab("hang");
}

async function opened(files) {
    if (files.length) land(await bringFiles(files));
}

function closeMenu() {
    byId("menu").classList.remove("open");
    byId("menu-button").setAttribute("aria-expanded", "false");
}

async function showExamples() {
    closeMenu();
    const all = await examples();
    const open = async (name) => {
        byId("examples").close();
        await bringExample(name);
        land();
    };
    const row = ({ name, title }) => h("li", {},
        h("button", { type: "button", "data-example": name, onclick: () => open(name) }, h("b", {}, name), h("span", {}, title)));
    fill(byId("examples-list"), all.map(row));
    byId("examples").showModal();
}

function startMenu() {
    const file = byId("file");
    const choose = () => {
        closeMenu();
        file.click();
    };
    byId("open").addEventListener("click", choose);
    byId("open-too").addEventListener("click", choose);
    file.addEventListener("change", async () => {
        await opened([...file.files]);
        file.value = "";
    });
    byId("show-examples").addEventListener("click", showExamples);
    byId("show-examples-too").addEventListener("click", showExamples);
    byId("show-changes").addEventListener("click", () => {
        closeMenu();
        showTab("changes");
        byId("changes-text").focus();
    });
    byId("show-save").addEventListener("click", () => {
        closeMenu();
        byId("save").showModal();
    });
    byId("clear").addEventListener("click", () => {
        clear();
        byId("save").close();
        showTab("hang");
    });
    byId("menu-button").addEventListener("click", (event) => {
        const is = byId("menu").classList.toggle("open");
        event.currentTarget.setAttribute("aria-expanded", String(is));
    });
    addEventListener("keydown", (event) => event.key === "Escape" && closeMenu());
}

/** Files that are dropped, and text that is pasted where nothing is edited. */
function startDrop() {
    let depth = 0;
    const over = (is) => shown(byId("drop"), is);
    addEventListener("dragenter", (event) => {
        if (![...event.dataTransfer.types].includes("Files")) return;
        depth += 1;
        over(true);
    });
    addEventListener("dragleave", () => {
        depth = Math.max(0, depth - 1);
        if (depth === 0) over(false);
    });
    addEventListener("dragover", (event) => event.preventDefault());
    addEventListener("drop", (event) => {
        event.preventDefault();
        depth = 0;
        over(false);
        opened([...event.dataTransfer.files]);
    });
    addEventListener("paste", (event) => {
        if (event.target.closest?.("input, textarea, select")) return;
        const text = event.clipboardData.getData("text/plain");
        if (event.clipboardData.files.length) opened([...event.clipboardData.files]);
        else if (text.trim()) land(bring([{ name: "pasted.txt", text }]));
    });
}

/** What stands in the address: a whole state, or an example by its name. */
async function arrive() {
    const example = /^#example=([\w-]+)$/.exec(location.hash);
    if (example && (await bringExample(example[1]))) {
        land();
        return true;
    }
    if (!(await fromAddress(location.hash))) {
        if (location.hash.startsWith("#all=")) fill(byId("say"), "The address is damaged: nothing was taken from it.");
        return false;
    }
    emit("brought");
    land();
    return true;
}

publish(runs);
startTabs();
startHang();
startPattern();
startPlaces();
startPicture();
startChanges();
startRules();
startWork();
startTake();
startMenu();
startDrop();
startKeeping();
on("brought reading titled hang", drawHead);
addEventListener("hashchange", arrive);
arrive().then((is) => {
    if (is) return;
    if (recall()) {
        emit("brought");
        land();
    } else {
        showTab("hang");
    }
});
