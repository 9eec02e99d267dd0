//! Faults of a text, each with its line and a mark under the place.

use codespan_reporting::diagnostic::{Diagnostic, Label};
use codespan_reporting::files::SimpleFiles;
use codespan_reporting::term::termcolor::{ColorChoice, StandardStream};
use codespan_reporting::term::{emit, Config};
use std::io::IsTerminal;

use rizhavaan_core::source::Text;
use rizhavaan_core::text::fault::{Fault, Faults, Severity, Sorted};

use crate::output::tell;

/// Shows faults on standard error: errors where there are some, at most 20, and how many more there are; else warnings.
pub fn show(texts: &[Text], sorted: &Sorted) {
    let severity = if sorted.errors > 0 { Severity::Error } else { Severity::Warning };
    let some: Vec<&Fault> = sorted.faults.iter().filter(|f| f.severity == severity).collect();
    let all = if sorted.errors > 0 { sorted.errors } else { some.len() };
    let shown = &some[..some.len().min(Faults::SHOWN)];
    show_each(texts, shown);
    if all > shown.len() {
        let what = if sorted.errors > 0 { "errors" } else { "warnings" };
        tell(&format!("and {} more {what}", all - shown.len()));
    }
}

/// Shows some faults.
pub fn show_each(texts: &[Text], faults: &[&Fault]) {
    if faults.is_empty() {
        return;
    }
    let mut files = SimpleFiles::new();
    for text in texts {
        files.add(text.name(), &text.text()[text.begin()..]);
    }
    let choice = if std::io::stderr().is_terminal() { ColorChoice::Auto } else { ColorChoice::Never };
    let stream = StandardStream::stderr(choice);
    for fault in faults {
        let at = fault.place;
        let text = &texts[at.text as usize];
        let begin = text.begin();
        let length = text.text().len() - begin;
        let start = (at.start as usize).saturating_sub(begin).min(length);
        let end = (at.end as usize).saturating_sub(begin).clamp(start, length);
        let diagnostic = match fault.severity {
            Severity::Error => Diagnostic::error(),
            Severity::Warning => Diagnostic::warning(),
        };
        let mut diagnostic =
            diagnostic.with_message(&fault.reason).with_labels(vec![Label::primary(at.text as usize, start..end)]);
        if let Some(help) = &fault.help {
            diagnostic = diagnostic.with_notes(vec![help.clone()]);
        }
        // If standard error is gone, there is nobody to tell.
        let _ = emit(&mut stream.lock(), &Config::default(), &files, &diagnostic);
    }
}
