// The costs of all orderings as a picture: a dot each over a scale of logarithms, those that are a plan of a name marked below it.

import { s, number, textWidth } from "./dom.js";

const SIDE = 14; // room beside the first and the last dot
const DOT = 5;
const STACK = 96; // how high dots of about one cost may stand
const AXIS = 20; // the numbers of the scale
const LABEL = 19; // a line for each marked dot
const FONT = '13px Inter, "DejaVu Sans", system-ui, sans-serif';
const NOTHING = 0.08; // where there is a cost of 0, the others begin at this part of the scale

/** Numbers of a scale of logarithms: 1, 2, 5, 10 .. from at most `low` to at least `high`. */
export function ticksOf(low, high) {
    const steps = [1, 2, 5];
    const all = [];
    for (let power = Math.floor(Math.log10(low)); power <= Math.ceil(Math.log10(high)); power += 1) {
        for (const step of steps) all.push(step * 10 ** power);
    }
    const first = Math.max(0, all.filter((tick) => tick <= low).length - 1);
    const last = all.findIndex((tick) => tick >= high);
    const ticks = all.slice(first, Math.max(last, first + 1) + 1);
    // Where there are many, only powers of ten are written, and the ends.
    return ticks.length <= 5 ? ticks : ticks.filter((tick, i) => Math.log10(tick) % 1 === 0 || i === 0 || i === ticks.length - 1);
}

/** The scale of some costs: `at(cost)` is a part of its width, from 0 to 1. */
export function makeScale(costs) {
    const some = costs.filter((cost) => cost > 0);
    if (!some.length) return { at: () => 0, ticks: [0] };
    const ticks = ticksOf(Math.min(...some), Math.max(...some));
    const [low, high] = [Math.log10(ticks[0]), Math.log10(ticks.at(-1))];
    const from = some.length < costs.length ? NOTHING : 0;
    return {
        at: (cost) => (cost > 0 ? from + ((1 - from) * (Math.log10(cost) - low)) / (high - low) : 0),
        ticks: from ? [0, ...ticks] : ticks,
    };
}

/** Where the dots stand: those of about one cost above each other, the marked ones lowest. */
function stacked(orderings, x) {
    const columns = new Map();
    const marked = (i) => orderings[i].marks.length > 0;
    const inTurn = orderings.map((_, i) => i).sort((a, b) => marked(b) - marked(a) || a - b);
    for (const i of inTurn) {
        const column = Math.round(x(orderings[i].cost) / (2 * DOT + 1));
        if (!columns.has(column)) columns.set(column, []);
        columns.get(column).push(i);
    }
    const highest = Math.max(1, ...[...columns.values()].map((column) => column.length));
    const step = Math.min(2 * DOT + 1, STACK / highest);
    const heights = [];
    for (const column of columns.values()) column.forEach((i, level) => (heights[i] = DOT + 1 + level * step));
    return { heights, height: Math.ceil((highest - 1) * step + 2 * DOT + 2) };
}

/** The words of the marked dots, on the side where there is room, in an order in which few lines cross them. */
function labelled(orderings, dots, width) {
    const all = orderings.map(({ marks, cost }, i) => ({ marks, words: `${marks.join(", ")} ${number(cost)}`, x: dots[i].x, top: dots[i].y }));
    const marked = all.filter(({ marks }) => marks.length);
    for (const label of marked) label.side = label.x + 9 + textWidth(label.words, FONT) < width ? 1 : -1;
    return marked.sort((a, b) => b.side - a.side || a.side * (b.x - a.x));
}

/** Draws into `svg`, which is so wide. `orderings` go from the cheapest on; answers where each dot stands. */
export function drawSpectrum(svg, width, orderings) {
    const scale = makeScale(orderings.map((ordering) => ordering.cost));
    const x = (cost) => SIDE + scale.at(cost) * (width - 2 * SIDE);
    const { heights, height } = stacked(orderings, x);
    const base = height + 4;
    const dots = orderings.map(({ cost }, i) => ({ x: x(cost), y: base - heights[i] }));
    const parts = [s("line", { class: "axis", x1: 2, x2: width - 2, y1: base, y2: base })];
    for (const tick of scale.ticks) {
        const side = x(tick) < 30 ? "right" : x(tick) > width - 30 ? "left" : "";
        const at = { right: x(tick) - SIDE + 2, left: x(tick) + SIDE - 2 }[side] ?? x(tick);
        parts.push(s("line", { class: "axis", x1: x(tick), x2: x(tick), y1: base, y2: base + 5 }));
        parts.push(s("text", { class: `small tick ${side}`, x: at, y: base + AXIS - 2 }, number(tick)));
    }
    const marked = labelled(orderings, dots, width);
    const lines = marked.map((label, line) => ({ ...label, y: base + AXIS + LABEL * (line + 1) - 6 }));
    for (const { x: from, top, y, side } of lines) parts.push(s("path", { class: "lead", d: `M${from} ${top}V${y - 4}h${side * 6}` }));
    for (const { x: from, y, side, words } of lines) {
        parts.push(s("text", { class: `mark ${side < 0 ? "left" : "right"}`, x: from + side * 9, y }, words));
    }
    orderings.forEach(({ marks }, i) => {
        parts.push(s("circle", { class: marks.length ? "dot marked" : "dot", "data-dot": i, cx: dots[i].x, cy: dots[i].y, r: DOT }));
    });
    // Those without a mark lie below those with one.
    const isMarkedDot = (part) => part.classList.contains("marked");
    svg.replaceChildren(...parts.filter((part) => !isMarkedDot(part)), ...parts.filter(isMarkedDot));
    const whole = base + AXIS + LABEL * marked.length + 2;
    svg.setAttribute("viewBox", `0 0 ${width} ${whole}`);
    svg.style.height = `${whole}px`;
    return dots;
}
