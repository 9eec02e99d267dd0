// All orderings of a pattern, which list the same places at other costs: as a picture, in words, and as a list from the cheapest on.

import { byId, h, fill, shown, count, duration, number, sentence } from "./dom.js";
import { state, on } from "./state.js";
import { orderingsLane, patternArgs } from "./runs.js";
import { makeRolling } from "./rolling.js";
import { drawSpectrum, makeScale } from "./spectrum.js";

const ROW = 52;

let orderings = []; // from the cheapest on
let scale = makeScale([]);
let dots = [];

const rolling = makeRolling({ id: "orderings-list", label: "Orderings, the cheapest first", height: ROW, row: makeRow, onChoose: tellChosen });

function inTurn({ vertices }) {
    return vertices.join(" → ");
}

function makeRow(i) {
    const ordering = orderings[i];
    return h("div", { class: "row ordering" },
        h("i", {}, number(i + 1)),
        h("div", { class: "turn" },
            h("span", { class: "turn-words" }, inTurn(ordering)),
            h("span", { class: "track" }, h("span", { class: "at", style: `left:${(100 * scale.at(ordering.cost)).toFixed(2)}%` })),
            h("span", { class: "price" }, h("span", { class: "tag" }, ordering.marks.join(", ")), ` ${number(ordering.cost)}`)));
}

/** How much more than the cheapest it costs. */
function times(cost) {
    const least = orderings[0].cost;
    if (cost === least) return "no ordering costs less";
    return least ? `${(cost / least).toFixed(cost < 10 * least ? 1 : 0)} times the cheapest` : "the cheapest costs nothing";
}

function tellChosen(i) {
    const { cost, marks } = orderings[i];
    const what = marks.length ? `, ${marks.join(" and ")}` : "";
    byId("ordering-words").textContent = `${number(i + 1)} of ${number(orderings.length)}${what}: ${inTurn(orderings[i])}, ${count(cost, "lookup")}; ${times(cost)}.`;
    for (const dot of byId("spectrum").querySelectorAll(".dot")) dot.classList.toggle("chosen", dot.dataset.dot === String(i));
}

/** The whole of it in words. */
function summary(apart) {
    const [least, most] = [orderings[0].cost, orderings.at(-1).cost];
    const range = orderings.length === 1 ? `The only ordering costs ${count(least, "lookup")}.`
        : least === most ? `All ${number(orderings.length)} orderings cost ${count(least, "lookup")}.`
            : `${number(orderings.length)} orderings, from ${number(least)} to ${count(most, "lookup")}.`;
    const named = orderings.flatMap(({ marks, cost }) => marks.filter((mark) => mark !== "cheapest").map((mark) => ({ mark, cost })));
    const words = named.map(({ mark, cost }, i) => `the ${mark} one ${i ? "" : "costs "}${number(cost)}`).join(", ");
    const has = words ? ` ${sentence(words)}` : "";
    return range + has + apart.map((word) => ` The ${word} plan has a join and is none of them.`).join("");
}

function plot() {
    const svg = byId("spectrum");
    const width = Math.round(svg.getBoundingClientRect().width);
    if (!width || !orderings.length) return;
    dots = drawSpectrum(svg, width, orderings);
    if (rolling.chosen >= 0) tellChosen(rolling.chosen);
}

/** The dot that is nearest to where the picture was tapped. */
function tapped(event) {
    const box = byId("spectrum").getBoundingClientRect();
    const far = dots.map(({ x, y }) => Math.hypot(event.clientX - box.left - x, event.clientY - box.top - y));
    if (far.length) rolling.choose(far.indexOf(Math.min(...far)));
}

function draw() {
    const found = state.orderings;
    const answer = found?.answer && !found.answer.errorCount ? found.answer : null;
    // What is wrong with the text is said above.
    shown(byId("orderings"), Boolean(found) && !found.fault && !found.answer?.errorCount);
    shown(byId("orderings-run"), Boolean(found?.running) && found.ms > 200);
    if (found?.running) {
        byId("orderings-time").textContent = duration(found.ms);
        return;
    }
    shown(byId("orderings-plot"), Boolean(answer?.orderings.length));
    const tell = (text, action = null) => fill(byId("orderings-words"), text ? h("p", { class: "hint" }, text) : null, action);
    const again = () => h("button", { type: "button", id: "orderings-again", onclick: runOrderings }, "Compare them");
    if (found?.cancelled) tell(`Cancelled after ${duration(found.ms)}: not all orderings were run.`, again());
    else if (found?.failed) tell(sentence(found.failed), again());
    else if (answer?.why) tell(sentence(answer.why));
    else tell("");
    if (!answer?.orderings.length) {
        orderings = [];
        return;
    }
    orderings = [...answer.orderings].sort((a, b) => a.cost - b.cost);
    scale = makeScale(orderings.map(({ cost }) => cost));
    const words = summary(answer.apart);
    byId("orderings-all").textContent = words;
    byId("spectrum").setAttribute("aria-label", `The cost of every ordering as a dot on a scale of logarithms. ${words}`);
    byId("orderings-list-place").style.height = `${Math.min(orderings.length, 6) * ROW + 1}px`;
    rolling.set(orderings.length, 0);
    plot();
}

export function runOrderings() {
    orderingsLane.run("orderings", patternArgs(), (answer, ms) => ({ answer, ms }));
}

/** Ends what runs and shows none. */
export function dropOrderings() {
    orderingsLane.drop();
}

export function startOrderings() {
    byId("orderings-list-place").append(rolling.node);
    byId("orderings-cancel").addEventListener("click", () => orderingsLane.cancel());
    byId("spectrum").addEventListener("click", tapped);
    new ResizeObserver(plot).observe(byId("spectrum"));
    on("orderings", draw);
    draw();
}
