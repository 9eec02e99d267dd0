//! `rizhavaan explain`, `picture` and `sql`.

use std::io::Write;
use std::path::Path;
use std::process::{Command, Stdio};

use rizhavaan_core::picture::dot;
use rizhavaan_core::{chosen, explain, find, orderings, sql, Loaded};

use crate::args::{Explain, Picture, Sql};
use crate::engine::Library;
use crate::files::{sources, Read};
use crate::find::options;
use crate::output::{write_all, Output};
use crate::progress::Progress;
use crate::stop::{Result, Stop};

pub fn explain(arguments: &Explain) -> Result<u8> {
    let progress = Progress::start();
    let sources = sources(&arguments.files.files)?;
    let read = Read::new(&sources, &progress)?;
    let patterns = read.explain(chosen(read.document(), &arguments.pattern))?;
    let loaded = read.explain(Loaded::load(&Library, read.document()))?;
    progress.say("searching");
    let options = options(&arguments.how, true);
    let mut all = Vec::new();
    for pattern in patterns {
        let found = read.explain(loaded.find_recorded(&Library, pattern, &options))?;
        all.push(read.explain(explain::explain(&Library, &loaded, &found, options.memory))?);
        if arguments.orderings {
            all.push(read.explain(orderings::plot(&Library, &loaded, pattern, &found.query, options.memory))?);
        }
    }
    progress.end();
    let mut output = Output::new(None)?;
    output.write_all(all.join("\n").as_bytes())?;
    output.finish()?;
    Ok(0)
}

pub fn picture(arguments: &Picture) -> Result<u8> {
    let progress = Progress::start();
    let sources = sources(&arguments.files.files)?;
    let read = Read::new(&sources, &progress)?;
    let document = read.document();
    let loaded = read.explain(Loaded::load(&Library, document))?;
    let names: Vec<String> = arguments.pattern.iter().cloned().collect();
    let pattern = match (document.patterns.is_empty(), names.is_empty()) {
        (true, true) => None,
        _ => read.explain(chosen(document, &names))?.first().copied(),
    };
    let found = match pattern {
        Some(pattern) => Some(read.explain(loaded.find(&Library, pattern, &options(&arguments.how, false)))?),
        None => None,
    };
    let description = dot(document, loaded.hang, found.as_ref(), arguments.all);
    let path = arguments.output.as_deref();
    let form = path.and_then(Path::extension).and_then(|e| e.to_str()).unwrap_or("svg").to_lowercase();
    progress.say("drawing");
    let picture = if form == "dot" { description.into_bytes() } else { draw(&description, &form)? };
    progress.end();
    write_all(path, &picture)?;
    Ok(0)
}

/// Has Graphviz draw.
fn draw(description: &str, form: &str) -> Result<Vec<u8>> {
    if !["svg", "png", "pdf"].contains(&form) {
        return Err(Stop::Because(format!("a picture is .svg, .png, .pdf or .dot, not .{form}")));
    }
    let missing =
        "Graphviz draws the picture, and its program 'dot' does not start: apt-get install graphviz, or write the \
                   description with -o rig.dot";
    let started = Command::new("dot").arg(format!("-T{form}")).stdin(Stdio::piped()).stdout(Stdio::piped()).spawn();
    let mut child = started.map_err(|_| Stop::Because(missing.into()))?;
    let mut input = child.stdin.take().expect("it is piped");
    let drawn = std::thread::scope(|scope| {
        // What cannot be written makes 'dot' fail, which is told below.
        scope.spawn(move || drop(input.write_all(description.as_bytes())));
        child.wait_with_output()
    });
    let output = drawn.map_err(|e| Stop::Because(format!("dot: {e}")))?;
    if !output.status.success() {
        return Err(Stop::Because("dot did not draw the picture".into()));
    }
    Ok(output.stdout)
}

pub fn sql(arguments: &Sql) -> Result<u8> {
    let progress = Progress::start();
    let sources = sources(&arguments.files.files)?;
    let read = Read::new(&sources, &progress)?;
    let document = read.document();
    let names: Vec<String> = arguments.pattern.iter().cloned().collect();
    let pattern = read.explain(chosen(document, &names))?[0];
    let Some(hang) = &document.hang else {
        return Err(Stop::Because("there is no hang: no [graph] and no table of items".into()));
    };
    let query = if arguments.once { read.explain(find::once(pattern))?.0 } else { pattern.query.clone() };
    let text = sql::sql(document, hang, pattern, &query);
    progress.end();
    write_all(arguments.output.as_deref(), text.as_bytes())?;
    Ok(0)
}
