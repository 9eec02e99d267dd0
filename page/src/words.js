// Names as the text form writes them.

const RESERVED = new Set(["vertex", "vertices", "expect", "<", "label", "day", "inspected", "note", "any", "="]);

function needsQuotes(name) {
    return name === "" || /^["[-]/.test(name) || name.endsWith(":") || name.includes("->") || /[#\s]/u.test(name) ||
        RESERVED.has(name) || /^[0-9]+$/.test(name) || /^\d{4}-\d{2}-\d{2}$/.test(name);
}

/** A name of an item, a vertex or a kind, in quotes where it needs them. */
export function quote(name) {
    return needsQuotes(name) ? `"${name.replaceAll('"', '""')}"` : name;
}
