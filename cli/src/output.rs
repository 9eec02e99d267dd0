//! Where answers go: standard output, or a file that is whole or not there.

use std::fs::{self, File};
use std::io::{self, BufWriter, Write};
use std::path::{Path, PathBuf};

use crate::stop::{Result, Stop};

/// Standard output, or a file under another name until it is whole.
pub struct Output {
    writer: BufWriter<Box<dyn Write>>,
    file: Option<(PathBuf, PathBuf)>,
}

impl Output {
    pub fn new(path: Option<&Path>) -> Result<Output> {
        let Some(path) = path else {
            let writer: Box<dyn Write> = Box::new(io::stdout().lock());
            return Ok(Output { writer: BufWriter::with_capacity(1 << 16, writer), file: None });
        };
        let mut beside = path.as_os_str().to_owned();
        beside.push(format!(".part{}", std::process::id()));
        let beside = PathBuf::from(beside);
        let file = File::create(&beside).map_err(|e| Stop::Because(format!("{}: {e}", path.display())))?;
        let writer: Box<dyn Write> = Box::new(file);
        Ok(Output { writer: BufWriter::with_capacity(1 << 16, writer), file: Some((beside, path.to_owned())) })
    }

    /// Writes what is left, and gives the file its name.
    pub fn finish(mut self) -> Result<()> {
        self.writer.flush()?;
        if let Some((beside, path)) = self.file.take() {
            fs::rename(&beside, &path).map_err(|e| {
                let _ = fs::remove_file(&beside);
                Stop::Because(format!("{}: {e}", path.display()))
            })?;
        }
        Ok(())
    }
}

impl Write for Output {
    fn write(&mut self, bytes: &[u8]) -> io::Result<usize> {
        self.writer.write(bytes)
    }

    fn flush(&mut self) -> io::Result<()> {
        self.writer.flush()
    }
}

/// What was not finished is taken away.
impl Drop for Output {
    fn drop(&mut self) {
        if let Some((beside, _)) = self.file.take() {
            let _ = fs::remove_file(beside);
        }
    }
}

/// Makes the folder that files are written to, where it is not there.
pub fn make_folder(folder: &Path) -> Result<()> {
    if folder.as_os_str().is_empty() {
        return Ok(());
    }
    fs::create_dir_all(folder).map_err(|e| Stop::Because(format!("{}: {e}", folder.display())))
}

/// Writes a line to standard error; if that fails, there is nobody to tell.
pub fn tell(message: &str) {
    let _ = writeln!(io::stderr(), "{message}");
}

/// Writes a whole text to standard output or a file.
pub fn write_all(path: Option<&Path>, text: &[u8]) -> Result<()> {
    let mut output = Output::new(path)?;
    output.write_all(text)?;
    output.finish()
}
