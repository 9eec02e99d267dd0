// A colour and a shape for each kind, the same in the pattern, in the picture and in the list.

const COLOURS = 7;
const SHAPES = 8;

/** The number of a kind among those of the hang, -1 for none. */
export function kindIndex(kinds, kind) {
    return kind === null || kind === undefined || !kinds ? -1 : kinds.items.indexOf(kind);
}

/** The class that colours things of a kind. */
export function kindClass(index) {
    return index < 0 ? "kind-none" : `kind-${index % COLOURS}`;
}

/** A kind in words. */
export function kindWords(kind, none = "any") {
    if (kind === null || kind === undefined) return none;
    return typeof kind === "number" ? `kind ${kind}` : kind;
}

const OUTLINES = [
    (w, h) => rounded(w, h, 5),
    (w, h) => rounded(w, h, h / 2),
    (w, h) => polygon([-w, 0], [-w + h / 2, -h], [w - h / 2, -h], [w, 0], [w - h / 2, h], [-w + h / 2, h]),
    (w, h) => polygon([-w, -h + 8], [-w + 8, -h], [w - 8, -h], [w, -h + 8], [w, h - 8], [w - 8, h], [-w + 8, h], [-w, h - 8]),
    (w, h) => `M${-w} 0 A${w} ${h} 0 1 1 ${w} 0 A${w} ${h} 0 1 1 ${-w} 0 Z`,
    (w, h) => polygon([-w + 10, -h], [w, -h], [w - 10, h], [-w, h]),
    (w, h) => polygon([-w + 10, -h], [w - 10, -h], [w, h], [-w, h]),
    (w, h) => polygon([-w, -h], [w - h, -h], [w, 0], [w - h, h], [-w, h]),
];

function rounded(w, h, r) {
    const corner = Math.min(r, w, h);
    const arc = (dx, dy) => `a${corner} ${corner} 0 0 1 ${dx} ${dy}`;
    return `M${-w + corner} ${-h} H${w - corner} ${arc(corner, corner)} V${h - corner} ${arc(-corner, corner)} H${-w + corner} `
        + `${arc(-corner, -corner)} V${-h + corner} ${arc(corner, -corner)} Z`;
}

function polygon(...points) {
    return `M${points.map((point) => point.join(" ")).join(" L")} Z`;
}

/** The outline of a thing of a kind around the origin, `width` and `height` in all. Some shapes need more room at their sides. */
export function outline(index, width, height) {
    return OUTLINES[index < 0 ? 0 : index % SHAPES](width / 2, height / 2);
}

export function sideRoom(index) {
    return [10, 14, 18, 12, 20, 16, 16, 18][index < 0 ? 0 : index % SHAPES];
}

/** Where the line from the middle of a box to a point leaves the box. */
export function leaving(from, size, to) {
    const dx = to.x - from.x;
    const dy = to.y - from.y;
    if (dx === 0 && dy === 0) return { x: from.x, y: from.y };
    const scale = Math.min(size.width / 2 / Math.abs(dx || 1e-9), size.height / 2 / Math.abs(dy || 1e-9));
    return { x: from.x + dx * scale, y: from.y + dy * scale };
}
