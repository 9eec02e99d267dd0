//! What the documents show is what the program prints: each block that begins with '$ target/bin/rizhavaan'.

mod common;

use std::fs;
use std::path::Path;

use common::run;

/// The commands of a text, each with what stands below it in its block.
fn shown(text: &str) -> Vec<(String, String)> {
    let mut blocks: Vec<(String, String)> = Vec::new();
    let mut is_inside = false;
    for line in text.lines() {
        match line.strip_prefix("    ") {
            Some(code) => {
                if let Some(command) = code.strip_prefix("$ target/bin/rizhavaan ") {
                    blocks.push((command.to_string(), String::new()));
                    is_inside = true;
                } else if code.starts_with("$ ") {
                    is_inside = false;
                } else if let (true, Some((_, out))) = (is_inside, blocks.last_mut()) {
                    *out += &format!("{code}\n");
                }
            }
            None if line.is_empty() => {
                if let (true, Some((_, out))) = (is_inside, blocks.last_mut()) {
                    *out += "\n";
                }
            }
            None => is_inside = false,
        }
    }
    blocks
}

#[test]
fn the_documents() {
    let top = Path::new(env!("CARGO_MANIFEST_DIR")).join("..");
    let mut count = 0;
    for name in ["README.md", "GUIDE.md", "examples/stage-rig/README.md"] {
        for (command, expected) in shown(&fs::read_to_string(top.join(name)).unwrap()) {
            let arguments: Vec<&str> = command.split_whitespace().take_while(|word| *word != "#").collect();
            let (_, out, err) = run(&top, &arguments);
            let trimmed =
                |text: &str| text.lines().map(str::trim_end).collect::<Vec<_>>().join("\n").trim().to_string();
            assert_eq!(trimmed(&out), trimmed(&expected), "{name}: {command}\n{err}");
            count += 1;
        }
    }
    assert!(count >= 5, "{count} commands");
}
