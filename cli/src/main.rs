//! `rizhavaan`: every place where a pattern occurs in a rig.

mod args;
mod check;
mod diff;
mod engine;
mod faults;
mod files;
mod find;
mod list;
mod memory;
mod output;
mod packed;
mod progress;
mod show;
mod stop;
mod tables;

use std::io::ErrorKind;
use std::process::ExitCode;

use args::{Arguments, Command};
use clap::{CommandFactory, Parser};
use output::tell;
use stop::Stop;

const ERROR: u8 = 2;

fn main() -> ExitCode {
    let arguments = Arguments::parse();
    // A fault of the program itself is an error like the others, and never a list.
    let result = std::panic::catch_unwind(|| run(&arguments.command)).unwrap_or_else(|_| {
        Err(Stop::Because("a fault of this program; what was written, if anything, is no answer".into()))
    });
    ExitCode::from(result.unwrap_or_else(|stop| {
        say(&stop);
        ERROR
    }))
}

fn run(command: &Command) -> stop::Result<u8> {
    match command {
        Command::Find(arguments) => find::run(arguments),
        Command::Pack(arguments) => packed::pack(arguments),
        Command::Unpack(arguments) => packed::run_unpack(arguments),
        Command::Check(arguments) => check::run(arguments),
        Command::Diff(arguments) => diff::run(arguments),
        Command::Explain(arguments) => show::explain(arguments),
        Command::Picture(arguments) => show::picture(arguments),
        Command::Sql(arguments) => show::sql(arguments),
        Command::Import(arguments) => tables::import(arguments),
        Command::Export(arguments) => tables::export(arguments),
        Command::Completion { shell } => {
            let mut script = Vec::new();
            clap_complete::generate(*shell, &mut Arguments::command(), "rizhavaan", &mut script);
            output::write_all(None, &script).map(|()| 0)
        }
    }
}

/// Says why there is no answer.
fn say(stop: &Stop) {
    match stop {
        Stop::Told => {}
        Stop::Because(reason) => tell(&format!("error: {reason}")),
        Stop::Failure(failure) => tell(&format!("error: {failure}")),
        Stop::Output(e) if e.kind() == ErrorKind::BrokenPipe => {
            tell("error: the reader closed; what was written is not complete");
        }
        Stop::Output(e) => tell(&format!("error: {e}; what was written is not complete")),
    }
}
