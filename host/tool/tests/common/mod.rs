//! Runs the binary, as a person would.

#![allow(dead_code)] // Each test file is a program and uses its part.

pub mod images;
pub mod picture;

use assert_cmd::Command;
use std::path::{Path, PathBuf};
use std::process::Output;
use std::time::Duration;
use std::{env, fs};
use tempfile::TempDir;

/// What the tool can be asked to do.
pub const COMMANDS: [&str; 13] = [
    "log", "frames", "uplink", "show", "plot", "books", "beacon", "key", "read", "room", "compare",
    "image", "track",
];

/// Longer than anything takes that is tested.
const PATIENCE: Duration = Duration::from_secs(60);

/// What a run of `ems` gave.
#[derive(Debug)]
pub struct Ran {
    pub status: i32,
    pub out: Vec<u8>,
    pub err: String,
}

impl Ran {
    pub fn of(output: Output) -> Ran {
        Ran {
            status: output.status.code().expect("it ended by itself"),
            out: output.stdout,
            err: String::from_utf8(output.stderr).expect("messages are text"),
        }
    }

    pub fn text(&self) -> &str {
        std::str::from_utf8(&self.out).expect("results are text")
    }

    /// Asserts a status, and that nothing panicked.
    pub fn status(self, wanted: i32) -> Ran {
        assert_eq!(self.status, wanted, "{}", self.err);
        assert!(!self.err.contains("panicked"), "{}", self.err);
        self
    }

    /// Asserts that the message is one line, and holds a text.
    pub fn says(self, text: &str) -> Ran {
        assert!(self.err.contains(text), "{:?} lacks {text:?}", self.err);
        assert_eq!(self.err.lines().count(), 1, "{}", self.err);
        self
    }

    /// Asserts what the first line of the messages is.
    pub fn says_first(self, line: &str) -> Ran {
        assert_eq!(self.err.lines().next(), Some(line));
        self
    }

    /// Asserts that the result holds a text.
    pub fn prints(self, text: &str) -> Ran {
        assert!(self.text().contains(text), "{} lacks {text:?}", self.text());
        self
    }
}

/// The repository's top folder.
pub fn root() -> PathBuf {
    Path::new(env!("CARGO_MANIFEST_DIR")).join("../..")
}

/// The binary.
pub fn ems() -> PathBuf {
    assert_cmd::cargo::cargo_bin("ems")
}

/// `ems` with arguments, in the repository's top folder.
pub fn command(args: &[&str]) -> Command {
    let mut command = Command::new(ems());
    command.args(args).current_dir(root()).timeout(PATIENCE);
    command
}

pub fn run(args: &[&str]) -> Ran {
    Ran::of(command(args).output().expect("ems runs"))
}

/// `ems` with something on its standard input.
pub fn fed(args: &[&str], input: &[u8]) -> Ran {
    let mut command = command(args);
    Ran::of(command.write_stdin(input).output().expect("ems runs"))
}

/// A line of bash, in which `$ems` is the binary.
pub fn bash(line: &str) -> Ran {
    let mut command = Command::new("bash");
    command.args(["-c", line]).env("ems", ems());
    command.current_dir(root()).timeout(PATIENCE);
    Ran::of(command.output().expect("bash runs"))
}

/// A file of the test's own, with a content.
pub fn scratch(name: &str, content: impl AsRef<[u8]>) -> String {
    let path = place(name);
    fs::write(&path, content).expect("a scratch file");
    path
}

/// Where a file of the test's own goes: each test has a thread, and a folder that
/// goes with it.
pub fn place(name: &str) -> String {
    thread_local! {
        static FOLDER: TempDir = TempDir::new().expect("a scratch folder");
    }
    let path = FOLDER.with(|folder| folder.path().join(name));
    path.to_str().expect("its name is text").to_string()
}

/// Asserts that a file of the repository holds this, byte for byte. With
/// `EMS_BLESS` set it is written instead.
pub fn is_file(path: &str, content: &[u8]) {
    let path = root().join(path);
    if env::var_os("EMS_BLESS").is_some() {
        fs::write(&path, content).expect("the file can be written");
    }
    let wanted = fs::read(&path).unwrap_or_default();
    let name = path.display();
    assert!(
        wanted == content,
        "{name} differs: EMS_BLESS=1 writes it anew"
    );
}

/// The streams of `tests/vectors` with their logs.
pub fn vectors() -> Vec<(String, String)> {
    let folder = root().join("tests/vectors");
    let entries = fs::read_dir(folder).expect("tests/vectors is there");
    let paths = entries.map(|entry| entry.expect("an entry").path());
    let streams = paths.filter(|path| path.extension().is_some_and(|end| end == "bin"));
    let named = |path: PathBuf| path.to_str().expect("its name is text").to_string();
    let pairs: Vec<_> = streams
        .map(|path| (named(path.clone()), named(path.with_extension("log"))))
        .collect();
    assert!(pairs.len() >= 80, "only {} streams", pairs.len());
    pairs
}
