// Where the work went: the plan in words and as a tree, rows and cost of each operator as bars, bounds beside what came.

import { byId, h, fill, shown, choice, count, duration, field, sentence, later, number } from "./dom.js";
import { state, on, emit, chosenPattern } from "./state.js";
import { patternArgs, workLane } from "./runs.js";
import { isShown } from "./tabs.js";
import { dropOrderings, runOrderings, startOrderings } from "./orderings.js";

const PLANS = [
    ["best", "the text's, else a picked one"],
    ["picked", "picked"],
    ["drawn", "drawn by the engine"],
    ["cheapest", "the cheapest ordering"],
    ["given", "the text's own"],
];
const FROM = { given: "the plan of the text", picked: "a picked plan", drawn: "a drawn plan", cheapest: "the cheapest ordering" };

let isStale = true;

const soon = later(() => {
    if (isShown("work")) run();
}, 250);

function run() {
    isStale = false;
    if (!state.hang.length || !chosenPattern()) {
        workLane.show(null);
        return;
    }
    workLane.run("explain", patternArgs(), (answer, ms) => ({ answer, ms }));
    runOrderings();
}

function bar(value, most, name) {
    const part = most ? Math.max(value ? 2 : 0, (100 * value) / most) : 0;
    return h("td", { class: "measure" },
        h("span", { class: "number" }, number(value)), h("span", { class: `bar ${name}`, style: `width:${part}%` }));
}

/** Rows that were thought of: small numbers with a digit behind the point. */
function estimate(value) {
    if (value === null || value === undefined) return "";
    return value < 10 && value % 1 ? value.toFixed(1) : number(Math.round(value));
}

function records(answer) {
    const most = (of) => Math.max(0, ...answer.records.map(of));
    const [rows, cost] = [most((record) => record.rows), most((record) => record.cost)];
    const line = (record) => h("tr", {},
        h("th", { scope: "row" }, record.operator),
        h("td", { class: "number" }, estimate(record.estimated)),
        bar(record.rows, rows, "rows"),
        bar(record.cost, cost, "cost"));
    const head = ["Step", "Estimate", "Rows", "Lookups"].map((text) => h("th", { scope: "col" }, text));
    const body = h("tbody", {}, answer.records.map(line));
    return h("div", { class: "wide" }, h("table", { class: "records" }, h("thead", {}, h("tr", {}, head)), body));
}

/** What no run of the plan passes, beside what this one took. */
function limits(answer) {
    if (!answer.limits?.length) return null;
    const bound = (value) => (value === null ? "past 64 bits" : number(value));
    const line = ({ what, bound: most, took }) => h("tr", {},
        h("th", { scope: "row" }, sentence(what).slice(0, -1)),
        h("td", { class: "number" }, bound(most)),
        h("td", { class: "number" }, took === null ? "" : number(took)));
    const head = ["Any run of this plan", "At most", "This run"].map((text) => h("th", { scope: "col" }, text));
    const table = h("table", { class: "limits" }, h("thead", {}, h("tr", {}, head)), h("tbody", {}, answer.limits.map(line)));
    const promise = "With so many words set aside no run of this plan is refused for want of them.";
    return [h("div", { class: "wide" }, table), answer.suffices ? h("p", { class: "hint" }, promise) : null];
}

function others(answer) {
    const line = (other) => {
        const time = other.time === null || other.time === undefined ? "" : `, ${other.time.toFixed(1)} of the time by estimate`;
        const words = other.same ? " is this one" : `: ${other.plan.join(", ")}${time}`;
        return h("li", {}, `The ${other.planFrom} plan${words}.`);
    };
    return h("ul", { class: "plain" }, (answer.others ?? []).map(line));
}

function draw() {
    const found = state.work;
    const node = byId("work-words");
    const tell = (text, isBad) => fill(node, text ? h("p", { class: isBad ? "fault" : "hint" }, text) : null);
    shown(byId("work-run"), Boolean(found?.running) && found.ms > 200);
    if (found?.running) {
        byId("work-time").textContent = duration(found.ms);
        return undefined;
    }
    if (!state.hang.length || !chosenPattern()) return tell("Here stands how the places were found, once there is a list.");
    if (!found) return tell("");
    if (found.cancelled) return tell(`Cancelled after ${duration(found.ms)}.`, true);
    if (found.failed) return tell(sentence(found.failed), true);
    const { answer } = found;
    if (answer.errorCount) return tell(`${count(answer.errorCount, "fault")}: ${sentence(answer.errors[0].reason)}`, true);
    return fill(
        node,
        h("p", {}, `${count(answer.places, "place")} by ${FROM[answer.planFrom] ?? answer.planFrom}, ${count(answer.cost, "lookup")}.`),
        answer.instead ? h("p", { class: "hint" }, sentence(answer.instead)) : null,
        h("ol", { class: "steps" }, (answer.steps ?? []).map((step) => h("li", {}, step))),
        records(answer),
        h("p", { class: "hint" }, "The longest bar of the lookups is the step that took the work."),
        h("pre", { class: "tree", tabindex: "0", "aria-label": "The plan as a tree" }, answer.tree ?? ""),
        others(answer),
        limits(answer),
    );
}

export function startWork() {
    const select = choice({ id: "plan", onchange: (event) => {
        state.plan = event.target.value;
        emit("options");
    } }, PLANS, state.plan);
    byId("plan-place").append(field("Plan", select));
    byId("work-cancel").addEventListener("click", () => workLane.cancel());
    startOrderings();
    on("work", draw);
    on("brought patterns pattern hang options", () => {
        isStale = true;
        dropOrderings();
        soon();
    });
    on("options", () => (select.value = state.plan));
    on("brought", () => {
        state.work = null;
        select.value = state.plan;
        draw();
    });
    on("tab", (name) => {
        if (name === "work" && isStale) run();
    });
    draw();
}
