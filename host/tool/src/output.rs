//! Where results go: standard output or a file, both buffered, with errors that
//! name which.

use crate::failure::{self, Failure};
use crate::words::{visible, visible_lines};
use crate::{closed, progress};
use std::fs::{self, File};
use std::io::{self, BufWriter, IsTerminal, Stdout, Write};
use std::os::unix::fs::MetadataExt;
use std::path::Path;

/// A place to write to.
pub struct Output {
    name: String,
    writer: BufWriter<Box<dyn Write>>,
}

impl Output {
    pub fn standard() -> Result<Output, Failure> {
        let name = "standard output".to_string();
        if closed::output() {
            return Err(Failure::usage(format!("{name}: is closed")));
        }
        let writer = BufWriter::new(if io::stdout().is_terminal() {
            Box::new(Screen(io::stdout())) as Box<dyn Write>
        } else {
            Box::new(io::stdout())
        });
        Ok(Output { name, writer })
    }

    /// The file at a path, or standard output for `-`.
    pub fn at(path: &Path) -> Result<Output, Failure> {
        if path == Path::new("-") {
            return Output::standard();
        }
        let name = visible(&path.to_string_lossy());
        let file = File::create(path).map_err(|error| Failure::file(&name, &error))?;
        let writer = BufWriter::new(Box::new(file) as Box<dyn Write>);
        Ok(Output { name, writer })
    }

    /// The error, with the place's name before it.
    fn named(&self, error: &io::Error) -> io::Error {
        let message = format!("{}: {}", self.name, failure::said(error));
        io::Error::other(message)
    }
}

/// Refuses to write where a file is that is read.
pub fn spare(input: &Path, output: &Path) -> Result<(), Failure> {
    if output == Path::new("-") || !same_file(input, output) {
        return Ok(());
    }
    let name = visible(&output.to_string_lossy());
    Err(Failure::usage(format!(
        "{name}: is the input, which would be lost: name another file after -o"
    )))
}

/// Whether two paths lead to one file with a content, by whatever links.
fn same_file(input: &Path, output: &Path) -> bool {
    let input = match input {
        path if path == Path::new("-") => Path::new("/dev/stdin"),
        path => path,
    };
    match (fs::metadata(input), fs::metadata(output)) {
        (Ok(a), Ok(b)) => a.is_file() && (a.dev(), a.ino()) == (b.dev(), b.ino()),
        _ => false,
    }
}

impl Write for Output {
    fn write(&mut self, bytes: &[u8]) -> io::Result<usize> {
        self.writer.write(bytes).map_err(|error| self.named(&error))
    }

    fn flush(&mut self) -> io::Result<()> {
        self.writer.flush().map_err(|error| self.named(&error))
    }
}

/// Standard output where a person sees it, and the progress bar.
struct Screen(Stdout);

impl Write for Screen {
    fn write(&mut self, bytes: &[u8]) -> io::Result<usize> {
        progress::hidden(|| self.0.write(bytes))
    }

    fn flush(&mut self) -> io::Result<()> {
        progress::hidden(|| self.0.flush())
    }
}

/// Says something on standard error; there is nobody to tell if that fails.
pub fn say(message: &str) {
    let message = visible_lines(message);
    let _ = progress::hidden(|| writeln!(io::stderr(), "ems: {message}"));
}
