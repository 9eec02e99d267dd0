// Taking it along: the list as CSV, everything as text, the whole state in the address, the sheets on paper.

import { byId, h, fill, shown, count, duration, sentence } from "./dom.js";
import { state, on, chosenPattern, hangRead } from "./state.js";
import { joined, sentenceOf, titleOf } from "./sections.js";
import { allSources, longCall, patternArgs } from "./runs.js";
import { addressPart, keptHere } from "./keep.js";
import { itemsOf } from "./places.js";

const say = (words) => fill(byId("say"), words);

function download(name, text, type) {
    const url = URL.createObjectURL(new Blob([text], { type }));
    const link = h("a", { href: url, download: name });
    document.body.append(link);
    link.click();
    link.remove();
    setTimeout(() => URL.revokeObjectURL(url), 10_000);
}

function fileName(ending) {
    const name = state.title.toLowerCase().replace(/[^\p{L}\p{N}]+/gu, "-").replace(/^-|-$/g, "");
    return `${name || "hang"}${ending}`;
}

let cancel = () => {};

/** Asks, with the time so far and a way to cancel where it is long, and says why where there is no answer. */
async function answerOf(name, args) {
    byId("save").close();
    const call = longCall(name, args, (ms) => {
        byId("taking-time").textContent = duration(ms);
        shown(byId("taking"), true);
    });
    cancel = call.cancel;
    try {
        const answer = await call.answer;
        if (!answer.errorCount) return answer;
        say(`${count(answer.errorCount, "fault")}: ${sentence(answer.errors[0].reason)}`);
    } catch (failure) {
        say(failure.cancelled ? "Cancelled. Nothing was saved." : sentence(failure.words ?? String(failure)));
    } finally {
        shown(byId("taking"), false);
    }
    return null;
}

async function saveCsv() {
    if (!hasList()) return;
    const answer = await answerOf("csv", patternArgs());
    if (!answer) return;
    download(fileName(`-${titleOf(chosenPattern().text)}.csv`), answer.text, "text/csv;charset=utf-8");
    say(`${count(answer.places, "place")} saved, all of them.`);
}

function hasList() {
    if (state.found?.list) return true;
    say("There is no list yet: open a hang and draw a pattern.");
    return false;
}

/** The text as it was written, with its comments; tables are written as text. */
async function wholeText() {
    if (state.hang.every((source) => !source.bytes && !/\.(csv|tsv|tab)$/i.test(source.name))) {
        return joined([...state.hang.map((source) => source.text), ...state.patterns.map((pattern) => pattern.text), state.changes]);
    }
    const answer = await answerOf("text_of", { sources: allSources() });
    return answer?.text ?? null;
}

async function saveText() {
    const text = await wholeText();
    byId("save").close();
    if (text === null) return;
    download(fileName(".txt"), text, "text/plain;charset=utf-8");
    say("Hang, patterns and changes saved as one text.");
}

async function saveAddress() {
    const part = await addressPart();
    try {
        history.replaceState(null, "", `#${part}`);
    } catch {
        location.hash = part;
    }
    byId("address").value = location.href;
    byId("address").select();
    const isCopied = await navigator.clipboard?.writeText(location.href).then(() => true, () => false);
    say(isCopied ? "The address is copied, with everything in it." : "The address has everything in it: copy it from here.");
}

/** The engine's own pages, then the names of the numbers on them. */
async function printSheets() {
    if (!hasList()) return;
    const answer = await answerOf("sheets", patternArgs());
    if (!answer) return;
    const pages = answer.pages.map((page) => h("pre", { class: "page" }, page));
    fill(byId("sheets"), pages, h("pre", { class: "page key" }, answer.key));
    document.body.classList.add("with-sheets");
    say(`${count(pages.length, "sheet")} and the key to the numbers.`);
    window.print();
}

/** What is printed without the sheets: title, pattern, and the list where it is short enough for paper. */
function printPlain() {
    if (document.body.classList.contains("with-sheets")) return;
    const list = state.found?.list;
    const pattern = chosenPattern();
    const items = hangRead()?.items ?? [];
    const names = (place) => itemsOf(place).map((item) => items[item]?.name ?? String(item));
    const row = (place) => h("tr", {}, [String(place + 1), ...names(place)].map((text) => h("td", {}, text)));
    const last = (n) => (isShort ? `${count(n, "place")}, all of them.` : "The list is long: print the sheets, or save it as CSV.");
    const isShort = list && list.n <= 3000;
    fill(
        byId("print-plain"),
        h("h1", {}, state.title || "Rizhavaan"),
        pattern ? h("p", {}, `${titleOf(pattern.text)}: ${sentenceOf(pattern.text)}`) : null,
        list ? h("p", {}, count(list.n, "place")) : null,
        isShort && list.n ? h("table", {},
            h("thead", {}, h("tr", {}, h("th", {}, "#"), state.found.answer.vertices.map((name) => h("th", {}, name)))),
            h("tbody", {}, Array.from({ length: list.n }, (_, place) => row(place)))) : null,
        list ? h("p", {}, last(list.n)) : null,
    );
}

function printed() {
    document.body.classList.remove("with-sheets");
    fill(byId("sheets"));
    fill(byId("print-plain"));
}

function drawKept() {
    const is = keptHere();
    const words = is ? "Kept in this browser until you open another hang." : "This browser keeps nothing: save the text or the address.";
    byId("kept").textContent = is === null ? "" : words;
}

export function startTake() {
    byId("taking-cancel").addEventListener("click", () => cancel());
    byId("save-csv").addEventListener("click", saveCsv);
    byId("save-text").addEventListener("click", saveText);
    byId("save-address").addEventListener("click", saveAddress);
    byId("print").addEventListener("click", printSheets);
    byId("print-too").addEventListener("click", printSheets);
    addEventListener("beforeprint", printPlain);
    addEventListener("afterprint", printed);
    on("kept", drawKept);
}
