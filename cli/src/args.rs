//! The command line.

use std::path::PathBuf;

use clap::{Args, Parser, Subcommand, ValueEnum};

/// Every place where a pattern occurs in a rig, by a proved engine.
#[derive(Parser)]
#[command(
    name = "rizhavaan",
    version,
    about,
    after_help = "Exit status: 0 found, or all as expected; 1 nothing found, or not as expected; 2 an error."
)]
pub struct Arguments {
    #[command(subcommand)]
    pub command: Command,
}

#[derive(Subcommand)]
pub enum Command {
    /// List every place of the patterns
    #[command(
        after_help = "Example:\n    rizhavaan find hang.txt\n    rizhavaan find items.csv connections.csv rules.txt --pattern two-motors --csv -o places.csv\n\nExit status: 0 found, 1 nothing found, 2 an error."
    )]
    Find(Find),
    /// Hold all patterns that have an 'expect' to it
    #[command(
        after_help = "Example:\n    rizhavaan check hang.txt rules.txt\n\nExit status: 0 all as expected, 1 one is not, 2 an error."
    )]
    Check(Check),
    /// What is gone, new and kept between two hangs, or before and after [changes]
    #[command(
        after_help = "Example:\n    rizhavaan diff monday.txt tuesday.txt --patterns rules.txt\n    rizhavaan diff hang.txt          # before and after its [changes]\n\nExit status: 0 no difference, 1 some, 2 an error."
    )]
    Diff(Diff),
    /// The plan in words, and where the work went
    #[command(after_help = "Example:\n    rizhavaan explain hang.txt --pattern two-motors")]
    Explain(Explain),
    /// The hang as a picture, as it hangs, with the places of a pattern marked
    #[command(
        after_help = "Example:\n    rizhavaan picture hang.txt -o rig.svg\n\nGraphviz draws it: apt-get install graphviz, or write the description with -o rig.dot."
    )]
    Picture(Picture),
    /// The hang and a pattern as SQL, for a second list by sqlite3 or PostgreSQL
    #[command(after_help = "Example:\n    rizhavaan sql hang.txt | sqlite3")]
    Sql(Sql),
    /// Tables to the text form
    #[command(after_help = "Example:\n    rizhavaan import items.csv connections.csv -o hang.txt")]
    Import(Import),
    /// The text form to tables items.csv and connections.csv
    #[command(after_help = "Example:\n    rizhavaan export hang.txt -o tables/")]
    Export(Export),
    /// The text form to the packed files g.bin, q.bin, p.bin, c.bin and names.txt
    #[command(after_help = "Example:\n    rizhavaan pack hang.txt packed/")]
    Pack(Pack),
    /// Packed files to the text form
    #[command(after_help = "Example:\n    rizhavaan unpack packed/ > hang.txt")]
    Unpack(Unpack),
    /// A script that completes commands in a shell
    #[command(
        after_help = "Example:\n    rizhavaan completion bash > ~/.local/share/bash-completion/completions/rizhavaan"
    )]
    Completion { shell: clap_complete::Shell },
}

/// What to read.
#[derive(Args)]
pub struct Files {
    /// Texts, tables (.csv, .tsv), folders of either, or - for standard input; all are read as one text
    #[arg(required = true, value_name = "FILE")]
    pub files: Vec<PathBuf>,
}

/// How to look.
#[derive(Args, Clone)]
pub struct How {
    /// The plan: 'given' in the text, 'picked' by estimates of its time, 'drawn' by the engine's rule, or the 'cheapest' of
    /// one scan and extends, for patterns of at most 5 items; all list the same places, in an order of their own [default: given where there is one, else picked]
    #[arg(long, value_enum, value_name = "PLAN")]
    pub plan: Option<PlanArgument>,
    /// List mirror images once
    #[arg(long)]
    pub once: bool,
    /// Memory that a run may take, as 500M or 2G [default: half of what is free]
    #[arg(long, value_name = "SIZE", value_parser = crate::memory::parse)]
    pub memory: Option<usize>,
}

#[derive(Clone, Copy, ValueEnum)]
pub enum PlanArgument {
    Given,
    Picked,
    Drawn,
    Cheapest,
}

#[derive(Args)]
pub struct Find {
    #[command(flatten)]
    pub files: Files,
    /// Only the pattern of this name; may be repeated
    #[arg(long, short, value_name = "NAME")]
    pub pattern: Vec<String>,
    #[command(flatten)]
    pub how: How,
    /// One JSON object
    #[arg(long, group = "form")]
    pub json: bool,
    /// Comma-separated values, with a head
    #[arg(long, group = "form")]
    pub csv: bool,
    /// The number of places alone
    #[arg(long, group = "form")]
    pub count: bool,
    /// Pages of 60 lines and 80 columns, by item numbers, as the engine prints them
    #[arg(long, group = "form")]
    pub sheet: bool,
    /// After the pages, the names of the item numbers that stand on them
    #[arg(long, requires = "sheet")]
    pub key: bool,
    /// Write here, whole or not at all
    #[arg(long, short, value_name = "FILE")]
    pub output: Option<PathBuf>,
}

#[derive(Args)]
pub struct Check {
    #[command(flatten)]
    pub files: Files,
    #[command(flatten)]
    pub how: How,
    /// One JSON object
    #[arg(long)]
    pub json: bool,
}

#[derive(Args)]
pub struct Diff {
    /// The old hang, and the new one; or one with [changes]
    #[arg(required = true, num_args = 1..=2, value_name = "HANG")]
    pub hangs: Vec<PathBuf>,
    /// Patterns in files of their own
    #[arg(long, value_name = "FILE", num_args = 1..)]
    pub patterns: Vec<PathBuf>,
    /// Only the pattern of this name; may be repeated
    #[arg(long, short, value_name = "NAME")]
    pub pattern: Vec<String>,
    #[command(flatten)]
    pub how: How,
    /// One JSON object
    #[arg(long)]
    pub json: bool,
}

#[derive(Args)]
pub struct Explain {
    #[command(flatten)]
    pub files: Files,
    /// Only the pattern of this name; may be repeated
    #[arg(long, short, value_name = "NAME")]
    pub pattern: Vec<String>,
    /// All plans of one scan and extends with their costs besides, for patterns of at most 5 items
    #[arg(long)]
    pub orderings: bool,
    #[command(flatten)]
    pub how: How,
}

#[derive(Args)]
pub struct Picture {
    #[command(flatten)]
    pub files: Files,
    /// Mark the places of this pattern [default: the first]
    #[arg(long, short, value_name = "NAME")]
    pub pattern: Option<String>,
    #[command(flatten)]
    pub how: How,
    /// Draw all items, however many
    #[arg(long)]
    pub all: bool,
    /// Write here: .svg, .png, .pdf, or .dot for the description [default: standard output, SVG]
    #[arg(long, short, value_name = "FILE")]
    pub output: Option<PathBuf>,
}

#[derive(Args)]
pub struct Sql {
    #[command(flatten)]
    pub files: Files,
    /// The pattern [default: the first]
    #[arg(long, short, value_name = "NAME")]
    pub pattern: Option<String>,
    /// List mirror images once
    #[arg(long)]
    pub once: bool,
    /// Write here
    #[arg(long, short, value_name = "FILE")]
    pub output: Option<PathBuf>,
}

#[derive(Args)]
pub struct Import {
    #[command(flatten)]
    pub files: Files,
    /// Write here
    #[arg(long, short, value_name = "FILE")]
    pub output: Option<PathBuf>,
}

#[derive(Args)]
pub struct Export {
    #[command(flatten)]
    pub files: Files,
    /// The folder for the tables, made where it is not there [default: that of the first file]
    #[arg(long, short, value_name = "FOLDER")]
    pub output: Option<PathBuf>,
}

#[derive(Args)]
pub struct Pack {
    /// A text
    #[arg(value_name = "FILE")]
    pub file: PathBuf,
    /// The folder for the packed files, made where it is not there [default: that of the text]
    #[arg(value_name = "FOLDER")]
    pub folder: Option<PathBuf>,
    /// The pattern, where there are several
    #[arg(long, short, value_name = "NAME")]
    pub pattern: Option<String>,
}

#[derive(Args)]
pub struct Unpack {
    /// The folder of the packed files
    #[arg(value_name = "FOLDER")]
    pub folder: PathBuf,
    /// Write here
    #[arg(long, short, value_name = "FILE")]
    pub output: Option<PathBuf>,
}
