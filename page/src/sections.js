// A text cut into its sections, so that hang, patterns and changes are edited each by itself.

const HEAD = /^[ \t]*\[[ \t]*([a-z]+)[ \t]*("(?:[^"\n]|"")*"|[^\]"#\s]+)?[ \t]*\]/gm;

/** The name in the head of a section as it is meant. */
function unquoted(name) {
    if (!name) return null;
    return name.startsWith('"') ? name.slice(1, -1).replaceAll('""', '"') : name;
}

/** Where a section begins: above its head, where comments stand between a blank line and it. */
function beginOf(text, head) {
    const above = /(?:^|\n[ \t\r]*\n)((?:[ \t]*#[^\n]*\n|[ \t\r]*\n)+)$/.exec(text.slice(Math.max(0, head - 4000), head));
    return above && above[1].includes("#") ? head - above[1].length : head;
}

/** The sections of a text in order: their word, their name and all their lines. What stands before the first goes with it. */
export function sectionsOf(text) {
    const heads = [...text.matchAll(HEAD)];
    if (heads.length === 0) return [{ word: "", name: null, text }];
    const begins = heads.map((head) => beginOf(text, head.index));
    const before = text.slice(0, begins[0]);
    const isQuiet = before.split("\n").every((line) => /^\s*(#|$)/.test(line));
    const sections = heads.map((head, i) => ({
        word: head[1],
        name: unquoted(head[2]),
        text: text.slice(i === 0 && isQuiet ? 0 : begins[i], begins[i + 1] ?? text.length),
    }));
    return isQuiet ? sections : [{ word: "", name: null, text: before }, ...sections];
}

/** The name of a pattern by the head of its text; 'query' where it has none. */
export function titleOf(text) {
    const head = sectionsOf(text).find((section) => section.word === "query");
    return head?.name ?? "query";
}

/** The sentence behind the head of a pattern. */
export function sentenceOf(text) {
    const line = text.split("\n").find((each) => /^[ \t]*\[[ \t]*query/.test(each)) ?? "";
    return line.replace(/^[^\]]*\][ \t]*#?/, "").trim();
}

const tidy = (text) => (text.trim() === "" ? "" : `${text.replace(/\s+$/, "")}\n`);

/** What a text brings: the part that is a hang, a text for each pattern, and changes. */
export function parted(text) {
    if (!/^[ \t]*\[[ \t]*(query|plan|changes)/m.test(text)) return { hang: text, patterns: [], changes: "" };
    const hang = [];
    const patterns = [];
    let changes = "";
    for (const section of sectionsOf(text)) {
        if (section.word === "query") {
            patterns.push({ name: section.name, text: section.text });
        } else if (section.word === "plan") {
            const named = patterns.find((pattern) => pattern.name === section.name);
            const of = (section.name !== null && named) || patterns[patterns.length - 1];
            if (of) of.text += section.text;
            else hang.push(section.text);
        } else if (section.word === "changes") {
            changes += section.text;
        } else {
            hang.push(section.text);
        }
    }
    return { hang: tidy(hang.join("")), patterns: patterns.map((pattern) => tidy(pattern.text)), changes: tidy(changes) };
}

/** One text of all parts, as it is saved. */
export function joined(texts) {
    return texts.map(tidy).filter((text) => text !== "").join("\n");
}

/** A line without its comment, to know it again. */
function stripped(line) {
    return line.replace(/[ \t]#.*$/, "").replace(/\s+/g, " ").trim();
}

/** A vertex of any kind as people write it. */
const plainly = (line) => line.replace(/^vertex ("(?:[^"]|"")*"|\S+)( inspected \S+)?$/, "$1: any$2");

/** A new text of a pattern, with the comments of the old one on lines that say the same, and what stood above its head. */
export function keepingComments(fresh, old) {
    const oldLines = old.split("\n");
    const head = oldLines.findIndex((line) => /^[ \t]*\[/.test(line));
    const above = head > 0 ? oldLines.slice(0, head) : [];
    const withComment = oldLines.filter((line) => /[ \t]#/.test(line) && !/^[ \t]*\[/.test(line));
    const known = new Map(withComment.map((line) => [stripped(line), line]));
    const lines = fresh.split("\n").map(plainly).map((line) => known.get(stripped(line)) ?? line);
    return [...above, ...lines].join("\n");
}

/** How many lines stand above the head of a pattern. */
export const linesAbove = (text) => Math.max(0, text.split("\n").findIndex((line) => /^[ \t]*\[/.test(line)));
