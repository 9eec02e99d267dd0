//! A drawing as SVG, made without another program: rows of boxes, with lines between them.

use std::collections::{HashMap, HashSet};
use std::fmt::Write;

use crate::packed::edge::Edge;
use crate::picture::{colour, Drawing};

/// A row has no more boxes than this; longer ones go on below.
const ROW: usize = 12;
/// How often the boxes of each row are put in order by their neighbours.
const SWEEPS: usize = 6;
const HEIGHT: usize = 38;
const ROW_STEP: usize = 104;
const GAP: usize = 22;
const MARGIN: usize = 16;
const TOP: usize = 56;
/// The width of a letter in a box, and in the caption.
const LETTER: usize = 7;
const CAPTION_LETTER: usize = 8;
/// Lines between the same two boxes stand so far from each other.
const BESIDE: i64 = 16;
/// And their labels so far below each other.
const LABEL_STEP: i64 = 11;
const RED: &str = "#cc0000";
const GREY: &str = "#666666";

/// Where a box is: its left and top edge, its width, and its row.
#[derive(Clone, Copy, Default)]
struct Spot {
    x: usize,
    y: usize,
    width: usize,
    row: usize,
}

impl Spot {
    fn middle(&self) -> i64 {
        (self.x + self.width / 2) as i64
    }

    fn top(&self) -> i64 {
        self.y as i64
    }

    fn bottom(&self) -> i64 {
        (self.y + HEIGHT) as i64
    }
}

impl Drawing<'_> {
    /// As SVG.
    pub fn svg(&self) -> String {
        let labels: Vec<[String; 2]> = self.items.iter().map(|&item| self.label(item)).collect();
        let ends = self.ends();
        let rows = rows(self.items.len(), &ends);
        let lines: Vec<&str> = self.caption.lines().collect();
        let caption = lines.iter().map(|line| line.chars().count()).max().unwrap_or(0);
        let (spots, width, height) = spots(&rows, &labels, CAPTION_LETTER * caption);
        let title = escaped(&lines.join("; "));
        let mut out = format!(
            "<svg xmlns=\"http://www.w3.org/2000/svg\" width=\"{width}\" height=\"{height}\" viewBox=\"0 0 {width} {height}\" \
             role=\"img\" font-family=\"sans-serif\" text-anchor=\"middle\">\n<title>{title}</title>\n<defs>{}{}</defs>\n\
             <rect width=\"100%\" height=\"100%\" fill=\"#ffffff\"/>\n",
            arrow("grey", GREY),
            arrow("red", RED),
        );
        for (i, line) in lines.iter().enumerate() {
            let _ = writeln!(
                out,
                "<text x=\"{}\" y=\"{}\" font-size=\"13\">{}</text>",
                width / 2,
                18 + 16 * i,
                escaped(line)
            );
        }
        self.lines(&mut out, &ends, &spots);
        for ((&item, spot), label) in self.items.iter().zip(&spots).zip(&labels) {
            self.item(&mut out, item, spot, label);
        }
        out.push_str("</svg>\n");
        out
    }

    /// The name of an item and its kind.
    fn label(&self, item: u32) -> [String; 2] {
        let label = self.hang.graph.vertices[item as usize].label;
        let kind = if label == 0 { String::new() } else { self.document.item_kind(label).into_owned() };
        [self.hang.item(item).into_owned(), kind]
    }

    /// The indices of both ends of each connection among the drawn items.
    fn ends(&self) -> Vec<(usize, usize)> {
        let index: HashMap<u32, usize> = self.items.iter().enumerate().map(|(i, &item)| (item, i)).collect();
        self.edges.iter().map(|e| (index[&e.source], index[&e.target])).collect()
    }

    /// The lines. A connection and its like in the other direction are one line with two heads; where there
    /// are many and all of one kind, the kind is not written at each.
    fn lines(&self, out: &mut String, ends: &[(usize, usize)], spots: &[Spot]) {
        let all: HashSet<&Edge> = self.edges.iter().copied().collect();
        let back = |e: &Edge| Edge { source: e.target, label: e.label, target: e.source };
        let is_plain = self.edges.len() > ROW && self.edges.iter().all(|e| e.label == self.edges[0].label);
        let mut before: HashMap<(usize, usize), i64> = HashMap::new();
        for (e, &(a, b)) in self.edges.iter().zip(ends) {
            let is_marked = |e: &Edge| self.marks.edges.contains(e);
            let is_twofold = a != b && all.contains(&back(e)) && is_marked(e) == is_marked(&back(e));
            if is_twofold && a > b {
                continue;
            }
            let beside = before.entry((a.min(b), a.max(b))).or_default();
            let (from, to, shift) = (&spots[a], &spots[b], *beside * BESIDE);
            let label_shift = *beside * LABEL_STEP;
            *beside += 1;
            let (x1, x2) = (from.middle() + shift, to.middle() + shift);
            let (path, x, y) = match () {
                _ if from.row < to.row => straight(x1, from.bottom(), x2, to.top()),
                _ if from.row > to.row => straight(x1, from.top(), x2, to.bottom()),
                // Beside each other, or the same: a bow below both.
                _ => {
                    let (y, dip) = (from.bottom(), from.bottom() + 40 + shift);
                    let x2 = if a == b { x1 + 24 } else { x2 };
                    (format!("M{x1} {y}Q{} {dip} {x2} {y}", (x1 + x2) / 2), (x1 + x2) / 2, (y + dip) / 2)
                }
            };
            let (name, colour, width) = if is_marked(e) { ("red", RED, 2) } else { ("grey", GREY, 1) };
            let kind = escaped(&self.document.connection_kind(e.label));
            let start = if is_twofold { format!(" marker-start=\"url(#rizhavaan-{name})\"") } else { String::new() };
            let _ = writeln!(
                out,
                "<path d=\"{path}\" fill=\"none\" stroke=\"{colour}\" stroke-width=\"{width}\"{start} \
                 marker-end=\"url(#rizhavaan-{name})\"><title>{kind}</title></path>"
            );
            if !is_plain {
                let y = y + label_shift;
                let _ = writeln!(
                    out,
                    "<text x=\"{x}\" y=\"{y}\" font-size=\"9\" stroke=\"#ffffff\" stroke-width=\"3\" paint-order=\"stroke\">{kind}</text>"
                );
            }
        }
    }

    fn item(&self, out: &mut String, item: u32, spot: &Spot, [name, kind]: &[String; 2]) {
        let fill = colour(self.hang.graph.vertices[item as usize].label);
        let (stroke, width) = if self.marks.items.contains(&item) { (RED, 3) } else { ("#000000", 1) };
        let Spot { x, y, width: box_width, .. } = spot;
        let (middle, first) = (spot.middle(), if kind.is_empty() { y + 23 } else { y + 16 });
        let _ = writeln!(
            out,
            "<rect x=\"{x}\" y=\"{y}\" width=\"{box_width}\" height=\"{HEIGHT}\" fill=\"{fill}\" stroke=\"{stroke}\" \
             stroke-width=\"{width}\"/><text x=\"{middle}\" y=\"{first}\" font-size=\"11\">{}</text>\
             <text x=\"{middle}\" y=\"{}\" font-size=\"11\">{}</text>",
            escaped(name),
            y + 30,
            escaped(kind),
        );
    }
}

/// A line, and its middle, where its label stands.
fn straight(x1: i64, y1: i64, x2: i64, y2: i64) -> (String, i64, i64) {
    (format!("M{x1} {y1}L{x2} {y2}"), (x1 + x2) / 2, (y1 + y2) / 2)
}

fn arrow(name: &str, colour: &str) -> String {
    format!(
        "<marker id=\"rizhavaan-{name}\" viewBox=\"0 0 8 8\" refX=\"8\" refY=\"4\" markerWidth=\"8\" markerHeight=\"8\" \
         markerUnits=\"userSpaceOnUse\" orient=\"auto-start-reverse\"><path d=\"M0 0L8 4L0 8z\" fill=\"{colour}\"/></marker>"
    )
}

/// The boxes of each row, from the top.
fn rows(count: usize, ends: &[(usize, usize)]) -> Vec<Vec<usize>> {
    let ranks = ranks(count, ends);
    let mut rows: Vec<Vec<usize>> = vec![Vec::new(); ranks.iter().max().map_or(0, |rank| rank + 1)];
    for (i, &rank) in ranks.iter().enumerate() {
        rows[rank].push(i);
    }
    let mut near: Vec<Vec<usize>> = vec![Vec::new(); count];
    for &(a, b) in ends.iter().filter(|(a, b)| a != b) {
        near[a].push(b);
        near[b].push(a);
    }
    let mut at: Vec<f64> = vec![0.0; count];
    let place = |row: &[usize], at: &mut [f64]| {
        for (i, &v) in row.iter().enumerate() {
            at[v] = (i as f64 + 0.5) / row.len() as f64;
        }
    };
    rows.iter().for_each(|row| place(row, &mut at));
    for sweep in 0..SWEEPS {
        for i in 0..rows.len() {
            let i = if sweep % 2 == 0 { i } else { rows.len() - 1 - i };
            let mean = |v: &usize| match near[*v].len() {
                0 => at[*v],
                n => near[*v].iter().map(|&u| at[u]).sum::<f64>() / n as f64,
            };
            let mut row: Vec<(f64, usize)> = rows[i].iter().map(|v| (mean(v), *v)).collect();
            row.sort_by(|a, b| a.partial_cmp(b).unwrap_or(std::cmp::Ordering::Equal));
            rows[i] = row.into_iter().map(|(_, v)| v).collect();
            place(&rows[i], &mut at);
        }
    }
    rows.iter().flat_map(|row| row.chunks(ROW)).map(<[usize]>::to_vec).collect()
}

/// The row of each box: below all that leads to it where nothing leads back, else as many steps down as it
/// takes.
fn ranks(count: usize, ends: &[(usize, usize)]) -> Vec<usize> {
    let mut below: Vec<Vec<usize>> = vec![Vec::new(); count];
    let mut above = vec![0; count];
    for &(a, b) in ends.iter().filter(|(a, b)| a != b) {
        below[a].push(b);
        above[b] += 1;
    }
    let roots: Vec<usize> = (0..count).filter(|&v| above[v] == 0).collect();
    let mut ranks = vec![0; count];
    let mut order = roots.clone();
    let mut next = 0;
    while next < order.len() {
        let v = order[next];
        next += 1;
        for &b in &below[v] {
            ranks[b] = ranks[b].max(ranks[v] + 1);
            above[b] -= 1;
            if above[b] == 0 {
                order.push(b);
            }
        }
    }
    if order.len() == count {
        return ranks;
    }
    let mut steps: Vec<Option<usize>> = vec![None; count];
    for root in roots.into_iter().chain(0..count) {
        let mut order = vec![root];
        if steps[root].is_none() {
            steps[root] = Some(0);
        } else {
            continue;
        }
        let mut next = 0;
        while next < order.len() {
            let v = order[next];
            next += 1;
            for &b in &below[v] {
                if steps[b].is_none() {
                    steps[b] = steps[v].map(|step| step + 1);
                    order.push(b);
                }
            }
        }
    }
    steps.into_iter().map(Option::unwrap_or_default).collect()
}

/// Where each box is, and the width and height of all; the width is that of the widest row, or the least if
/// that is more.
fn spots(rows: &[Vec<usize>], labels: &[[String; 2]], least: usize) -> (Vec<Spot>, usize, usize) {
    let letters = |label: &[String; 2]| label.iter().map(|part| part.chars().count()).max().unwrap_or(0);
    let widths: Vec<usize> = labels.iter().map(|label| LETTER * letters(label) + 18).collect();
    let of_row = |row: &[usize]| row.iter().map(|&v| widths[v]).sum::<usize>() + GAP * row.len().saturating_sub(1);
    let width = rows.iter().map(|row| of_row(row)).max().unwrap_or(0).max(least) + 2 * MARGIN;
    let mut spots = vec![Spot::default(); labels.len()];
    for (i, row) in rows.iter().enumerate() {
        let mut x = (width - of_row(row)) / 2;
        for &v in row {
            spots[v] = Spot { x, y: TOP + i * ROW_STEP, width: widths[v], row: i };
            x += widths[v] + GAP;
        }
    }
    let height = TOP + rows.len().saturating_sub(1) * ROW_STEP + HEIGHT + 40;
    (spots, width, height)
}

/// A text in XML; what it cannot have is left out.
fn escaped(text: &str) -> String {
    let mut out = String::with_capacity(text.len());
    for c in text.chars() {
        match c {
            '&' => out.push_str("&amp;"),
            '<' => out.push_str("&lt;"),
            '>' => out.push_str("&gt;"),
            '"' => out.push_str("&quot;"),
            c if c.is_control() || c == '\u{fffe}' || c == '\u{ffff}' => {}
            c => out.push(c),
        }
    }
    out
}
