//! The packed files of a folder, for the examples that take one.
use std::error::Error;
use std::io::ErrorKind;
use std::path::PathBuf;
use std::process::ExitCode;

/// A folder with packed files.
pub struct Folder(PathBuf);

impl Folder {
    /// The folder that the program's first argument names.
    pub fn named(usage: &str) -> Result<Folder, String> {
        std::env::args_os().nth(1).map(|path| Folder(path.into())).ok_or(format!("usage: {usage}"))
    }

    /// The bytes of a file. Where they can't be read the error names it.
    pub fn read(&self, name: &str) -> Result<Vec<u8>, String> {
        self.read_if_there(name)?.ok_or_else(|| format!("{} is missing", self.0.join(name).display()))
    }

    /// The bytes of a file, or nothing where there is none.
    pub fn read_if_there(&self, name: &str) -> Result<Option<Vec<u8>>, String> {
        let path = self.0.join(name);
        match std::fs::read(&path) {
            Ok(bytes) => Ok(Some(bytes)),
            Err(error) if error.kind() == ErrorKind::NotFound => Ok(None),
            Err(error) => Err(format!("{}: {error}", path.display())),
        }
    }
}

/// A program's end: an error is printed in words, and told by the exit status.
pub fn ended(result: Result<(), Box<dyn Error>>) -> ExitCode {
    match result {
        Ok(()) => ExitCode::SUCCESS,
        Err(error) => {
            eprintln!("{error}");
            ExitCode::FAILURE
        }
    }
}
