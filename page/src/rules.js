// All patterns with what is expected of them: green where it holds, red where not.

import { byId, h, fill, shown, count, duration, sentence, later } from "./dom.js";
import { state, on, emit } from "./state.js";
import { titleOf, sentenceOf } from "./sections.js";
import { allSources, rulesLane } from "./runs.js";
import { isShown, showTab } from "./tabs.js";

let isStale = true;

const soon = later(() => {
    if (isShown("rules")) run();
}, 250);

function run() {
    isStale = false;
    if (!state.hang.length || !state.patterns.length) {
        rulesLane.show(null);
        return;
    }
    const before = allSources().filter((source) => source.name !== "changes");
    rulesLane.run("check", { sources: before }, (answer, ms) => ({ answer, ms }));
}

function outcome(rule) {
    if (!rule) return { word: "nothing is expected", class: "open" };
    if (rule.error) return { word: sentence(rule.error.reason), class: "broken" };
    return rule.holds ? { word: "holds", class: "holds" } : { word: "does not hold", class: "broken" };
}

function row(pattern, i, rules) {
    const title = titleOf(pattern.text);
    const rule = rules?.find((each) => each.pattern === title);
    const is = outcome(rule);
    const sign = { holds: "✓", broken: "✗", open: "–" }[is.class];
    const numbers = rule ? `expected ${rule.expect}${rule.error ? "" : `, ${count(rule.places, "place")}`}: ` : "";
    const go = () => {
        emit("ask-pattern", i);
        showTab("places");
    };
    const words = [h("b", {}, title), h("span", {}, sentenceOf(pattern.text)), h("small", {}, `${numbers}${is.word}`)];
    return h("li", {}, h("button", { type: "button", class: `rule ${is.class}`, "data-rule": title, onclick: go },
        h("b", { class: "sign", "aria-hidden": "true" }, sign), h("span", { class: "rule-words" }, words)));
}

/** What is said of all rules together. */
function verdict(found, broken) {
    if (!state.patterns.length) return "No pattern yet. A rule is a pattern with what is expected of it.";
    if (!state.hang.length) return "Open a hang to hold the rules to.";
    if (!found) return "";
    if (found.cancelled) return `Cancelled after ${duration(found.ms)}.`;
    if (found.failed) return sentence(found.failed);
    const { errors, errorCount, rules } = found.answer;
    if (errorCount) return `${count(errorCount, "fault")}: ${errors[0].file}, line ${errors[0].line}: ${sentence(errors[0].reason)}`;
    if (broken) return `${broken} of ${count(rules.length, "rule")} ${broken === 1 ? "does" : "do"} not hold.`;
    if (rules.length === 0) return "No pattern says what is expected of it.";
    return rules.length === 1 ? "The rule holds." : `All ${count(rules.length, "rule")} hold.`;
}

function draw() {
    const found = state.rules;
    const words = byId("rules-words");
    shown(byId("rules-run"), Boolean(found?.running) && found.ms > 200);
    if (found?.running) {
        byId("rules-time").textContent = duration(found.ms);
        return;
    }
    const answer = found?.answer;
    const broken = answer?.rules?.filter((rule) => !rule.holds) ?? [];
    const isBad = Boolean(found?.failed || found?.cancelled || answer?.errorCount || broken.length);
    const text = verdict(found, broken.length);
    fill(words, text);
    words.className = `verdict ${isBad ? "broken" : answer?.rules?.length ? "holds" : ""}`;
    const rules = answer?.errorCount ? null : answer?.rules;
    fill(byId("rules-list"), state.patterns.map((pattern, i) => row(pattern, i, rules)));
}

export function startRules() {
    byId("rules-cancel").addEventListener("click", () => rulesLane.cancel());
    on("rules", draw);
    on("brought patterns pattern hang", () => {
        isStale = true;
        soon();
    });
    on("brought", () => {
        state.rules = null;
        draw();
    });
    on("tab", (name) => {
        if (name === "rules" && isStale) run();
    });
    draw();
}
