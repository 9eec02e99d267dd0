//! Bar charts as SVG, readable on a light page and on a dark one.
use std::fmt::Write;

/// A bar: a number, or one that is at least so large.
#[derive(Clone, Copy)]
pub enum Bar {
    Of(f64),
    Above(f64),
}

impl Bar {
    fn value(self) -> f64 {
        match self {
            Bar::Of(value) | Bar::Above(value) => value,
        }
    }
}

/// A line of the chart: its name, and a bar for each series, or none.
pub type Line = (String, Vec<Option<Bar>>);

const COLOURS: [&str; 4] = ["#3a7ebf", "#c4622d", "#4c9a57", "#8e6bbf"];
const NAMES: f64 = 350.0;
const BARS: f64 = 470.0;
const WIDTH: f64 = NAMES + BARS + 90.0;
const THICK: f64 = 9.0;
const GAP: f64 = 9.0;
const TOP: f64 = 64.0;

fn escaped(text: &str) -> String {
    text.replace('&', "&amp;").replace('<', "&lt;").replace('>', "&gt;")
}

fn number(value: f64) -> String {
    match value {
        x if x >= 99.5 => format!("{x:.0}"),
        x if x >= 9.95 => format!("{x:.1}"),
        x => format!("{x:.2}"),
    }
}

/// A chart over a logarithmic scale.
pub fn chart(title: &str, unit: &str, series: &[&str], lines: &[Line]) -> String {
    let values = || lines.iter().flat_map(|line| line.1.iter().flatten()).map(|bar| bar.value().max(1e-9).log10());
    let low = values().fold(f64::INFINITY, f64::min).floor();
    let high = values().fold(f64::NEG_INFINITY, f64::max).ceil().max(low + 1.0);
    let x = |value: f64| NAMES + BARS * ((value.max(1e-9).log10() - low) / (high - low)).max(0.0);
    let each = GAP + THICK * series.len() as f64;
    let bottom = TOP + each * lines.len() as f64;
    let mut out = format!(
        "<svg xmlns=\"http://www.w3.org/2000/svg\" viewBox=\"0 0 {WIDTH} {}\" font-family=\"sans-serif\" font-size=\"12\">\n\
         <style>text {{ fill: #24292f }} .axis {{ stroke: #8b949e; stroke-opacity: .45 }} \
         @media (prefers-color-scheme: dark) {{ text {{ fill: #d8dee4 }} }}</style>\n\
         <title>{}</title>\n<text x=\"8\" y=\"18\" font-size=\"14\" font-weight=\"bold\">{}</text>\n",
        bottom + 26.0,
        escaped(title),
        escaped(title)
    );
    let mut at = 8.0;
    for (name, colour) in series.iter().zip(COLOURS) {
        let _ = write!(out, "<rect x=\"{at}\" y=\"30\" width=\"11\" height=\"11\" fill=\"{colour}\"/>");
        let _ = writeln!(out, "<text x=\"{}\" y=\"40\">{}</text>", at + 16.0, escaped(name));
        at += 40.0 + 6.6 * name.chars().count() as f64;
    }
    for power in low as i32..=high as i32 {
        let (at, value) = (x(10f64.powi(power)), 10f64.powi(power));
        let _ =
            writeln!(out, "<line class=\"axis\" x1=\"{at:.1}\" y1=\"{}\" x2=\"{at:.1}\" y2=\"{bottom}\"/>", TOP - 8.0);
        let _ =
            writeln!(out, "<text x=\"{at:.1}\" y=\"{}\" text-anchor=\"middle\">{value} {unit}</text>", bottom + 16.0);
    }
    for (i, (name, bars)) in lines.iter().enumerate() {
        let top = TOP + each * i as f64;
        let middle = top + THICK * series.len() as f64 / 2.0 + 4.0;
        let _ =
            writeln!(out, "<text x=\"{}\" y=\"{middle:.1}\" text-anchor=\"end\">{}</text>", NAMES - 8.0, escaped(name));
        for (k, bar) in bars.iter().enumerate() {
            let Some(bar) = bar else { continue };
            let (y, end) = (top + THICK * k as f64, x(bar.value()).max(NAMES + 1.0));
            let (colour, width) = (COLOURS[k % COLOURS.len()], end - NAMES);
            let _ = write!(
                out,
                "<rect x=\"{NAMES}\" y=\"{y:.1}\" width=\"{width:.1}\" height=\"{}\" fill=\"{colour}\"/>",
                THICK - 1.0
            );
            let sign = if matches!(bar, Bar::Above(_)) { "&gt; " } else { "" };
            let (text, y) = (number(bar.value()), y + THICK - 1.5);
            let _ = writeln!(out, "<text x=\"{:.1}\" y=\"{y:.1}\" font-size=\"9\">{sign}{text}</text>", end + 4.0);
        }
    }
    out + "</svg>\n"
}
