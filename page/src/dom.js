// Elements of the document, made in one expression.

const SVG = "http://www.w3.org/2000/svg";

function make(node, attributes, children) {
    for (const [name, value] of Object.entries(attributes)) {
        if (value === null || value === undefined || value === false) continue;
        if (name.startsWith("on")) node.addEventListener(name.slice(2), value);
        else if (name === "value" || name === "checked") node[name] = value;
        else node.setAttribute(name, value === true ? "" : value);
    }
    node.append(...children.flat().filter((child) => child !== null && child !== undefined && child !== false));
    return node;
}

/** An element with attributes (`onclick` and the like are listeners) and children, texts or elements. */
export function h(tag, attributes = {}, ...children) {
    return make(document.createElement(tag), attributes, children);
}

/** The same for an element of a drawing. */
export function s(tag, attributes = {}, ...children) {
    return make(document.createElementNS(SVG, tag), attributes, children);
}

export function byId(id) {
    return document.getElementById(id);
}

/** Gives an element these children instead of those it has. */
export function fill(node, ...children) {
    node.replaceChildren(...children.flat().filter((child) => child !== null && child !== undefined && child !== false));
    return node;
}

export function shown(node, is) {
    node.hidden = !is;
}

/** A choice among `options`, pairs of a value and a text. */
export function choice(attributes, options, value) {
    const select = h("select", attributes, options.map(([of, text]) => h("option", { value: of }, text)));
    select.value = value;
    return select;
}

/** A label above its field. */
export function field(text, input) {
    return h("label", { class: "field" }, h("span", {}, text), input);
}

/** Calls `f` once, when nothing has been asked for `ms`. */
export function later(f, ms) {
    let timer = 0;
    const ask = () => {
        clearTimeout(timer);
        timer = setTimeout(f, ms);
    };
    ask.cancel = () => clearTimeout(timer);
    return ask;
}

const canvas = document.createElement("canvas").getContext("2d");

/** How wide a text is in a font. */
export function textWidth(text, font) {
    canvas.font = font;
    return canvas.measureText(text).width;
}

/** A number as people write it: 2,000. */
export function number(n) {
    return n.toLocaleString("en");
}

/** A number with its noun: '1 place', '2,000 places'. */
export function count(n, one, many = `${one}s`) {
    return `${number(n)} ${n === 1 ? one : many}`;
}

/** A sentence begins with a capital and ends with a full stop. */
export function sentence(words) {
    const text = words.trim();
    return text.charAt(0).toUpperCase() + text.slice(1) + (/[.!?]$/.test(text) ? "" : ".");
}

/** Time for people: '3 ms', '1.2 s', '2 min 5 s'. */
export function duration(ms) {
    if (ms < 1000) return `${Math.max(1, Math.round(ms))} ms`;
    if (ms < 60000) return `${(ms / 1000).toFixed(1)} s`;
    return `${Math.floor(ms / 60000)} min ${Math.floor((ms % 60000) / 1000)} s`;
}
