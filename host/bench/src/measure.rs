//! Building the drivers, running them, and asking binutils.

use crate::streams::Stream;
use std::path::{Path, PathBuf};
use std::process::Command;
use std::{env, fs};

/// Errors are told to whoever runs the bench.
pub type Result<T> = std::result::Result<T, Box<dyn std::error::Error>>;

/// Where the bench's files stand.
pub struct Bench {
    /// `drive.c`, the C version and the budget.
    pub package: PathBuf,
    /// The library.
    pub archive: PathBuf,
    /// What is built, and the streams.
    folder: PathBuf,
}

impl Bench {
    /// The bench of this package, over the library in `EMS_LIB_DIR`.
    pub fn new() -> Result<Bench> {
        let package = PathBuf::from(env!("CARGO_MANIFEST_DIR"));
        let archive = PathBuf::from(env::var("EMS_LIB_DIR")?).join("libflight.a");
        let folder = package.join("../target/bench");
        fs::create_dir_all(&folder)?;
        Ok(Bench {
            package,
            archive,
            folder,
        })
    }

    /// Compiles the driver over the library.
    pub fn library_driver(&self) -> Result<PathBuf> {
        let driver = self.folder.join("drive-library");
        let mut gcc = gcc();
        gcc.arg(self.package.join("drive.c")).arg(&self.archive);
        print_of(gcc.arg("-o").arg(&driver))?;
        Ok(driver)
    }

    /// Compiles the C version: its objects.
    pub fn c_objects(&self) -> Result<Vec<PathBuf>> {
        let object = |name| {
            let object = self.folder.join(format!("{name}.o"));
            let source = self.package.join(format!("peer/{name}.c"));
            let mut gcc = gcc();
            gcc.args(["-fstack-usage", "-c"]).arg(source);
            print_of(gcc.arg("-o").arg(&object))?;
            Ok(object)
        };
        ["books", "ems", "morse", "track"]
            .into_iter()
            .map(object)
            .collect()
    }

    /// Compiles the driver over the C version's objects.
    pub fn c_driver(&self, objects: &[PathBuf]) -> Result<PathBuf> {
        let driver = self.folder.join("drive-c");
        let mut gcc = gcc();
        gcc.arg("-DPEER").arg(self.package.join("drive.c"));
        print_of(gcc.args(objects).arg("-o").arg(&driver))?;
        Ok(driver)
    }

    /// Writes a stream for the C drivers: the file.
    pub fn stream_file(&self, place: usize, stream: &Stream) -> Result<String> {
        let file = self.folder.join(format!("{place}.stream"));
        fs::write(&file, stream.file())?;
        Ok(file.to_string_lossy().into_owned())
    }
}

/// The compiler of all that is C here.
fn gcc() -> Command {
    let mut gcc = Command::new("gcc");
    gcc.args(["-std=c11", "-O2", "-Wall", "-Wextra"]);
    gcc
}

/// Runs a command; what it prints on both outputs, or the failure.
fn print_of(command: &mut Command) -> Result<(String, String)> {
    let output = command.output()?;
    let text = |bytes: &[u8]| String::from_utf8_lossy(bytes).into_owned();
    if !output.status.success() {
        return Err(format!("{command:?}: {}", text(&output.stderr)).into());
    }
    Ok((text(&output.stdout), text(&output.stderr)))
}

/// A driver with the stream it drives.
pub struct Program {
    path: PathBuf,
    stream: String,
}

impl Program {
    /// A driver, and the argument that names its stream.
    pub fn new(path: &Path, stream: String) -> Program {
        let path = path.to_path_buf();
        Program { path, stream }
    }

    /// The instructions of a whole run with so many calls.
    pub fn instructions(&self, calls: u64) -> Result<f64> {
        self.collected(calls, &[])
    }

    /// The same, as callgrind counts them with these options.
    fn collected(&self, calls: u64, options: &[String]) -> Result<f64> {
        let mut valgrind = Command::new("valgrind");
        valgrind.args(["--tool=callgrind", "--callgrind-out-file=/dev/null"]);
        valgrind.args(options);
        valgrind
            .arg(&self.path)
            .arg(&self.stream)
            .arg(calls.to_string());
        let (_, said) = print_of(&mut valgrind)?;
        let collected = said.lines().find_map(|line| line.split_once("Collected :"));
        let number = collected.ok_or("valgrind gives no count")?.1.trim();
        Ok(number.parse()?)
    }

    /// The instructions of one call of the stream: those of some calls and a
    /// tenth more, less those of the tenth, so that starting up is in no number.
    pub fn instructions_a_call(&self, stream: &Stream) -> Result<f64> {
        let (calls, tenth) = (stream.counted, stream.counted / 10);
        let all = self.instructions(calls + tenth)?;
        Ok((all - self.instructions(tenth)?) / calls as f64)
    }

    /// Those of them within one function, all that it calls included.
    pub fn instructions_within(&self, function: &str, stream: &Stream) -> Result<f64> {
        let within = [format!("--toggle-collect={function}")];
        match self.collected(stream.counted, &within)? {
            0.0 => Err(format!("{}: {function} isn't called", stream.name).into()),
            all => Ok(all / stream.counted as f64),
        }
    }

    /// The nanoseconds of a run with so many calls, and the sum that it gives.
    pub fn timed(&self, calls: u64) -> Result<(f64, u64)> {
        let mut run = Command::new(&self.path);
        let (printed, _) = print_of(run.arg(&self.stream).arg(calls.to_string()))?;
        let (nanoseconds, sum) = printed.trim().split_once(' ').ok_or("no numbers")?;
        Ok((nanoseconds.parse()?, sum.parse()?))
    }

    /// The nanoseconds of the best of five runs, and the sum that they give.
    pub fn best_of_five(&self, calls: u64) -> Result<(f64, u64)> {
        let mut best = (f64::INFINITY, 0);
        for _ in 0..5 {
            let (nanoseconds, sum) = self.timed(calls)?;
            best = (best.0.min(nanoseconds), sum);
        }
        Ok(best)
    }
}

/// Today, as a page has it.
pub fn today() -> Result<String> {
    let (date, _) = print_of(Command::new("date").arg("+%F"))?;
    Ok(date.trim().to_string())
}

/// The text bytes of objects and archives, as `size` has them.
pub fn code_bytes(files: &[PathBuf]) -> Result<u64> {
    let (table, _) = print_of(Command::new("size").arg("-t").args(files))?;
    let total = table
        .lines()
        .last()
        .and_then(|line| line.split_whitespace().next());
    Ok(total.ok_or("size prints nothing")?.parse()?)
}

/// Their bytes of constants: all sections of `.rodata`, as `size -A` has them.
pub fn constant_bytes(files: &[PathBuf]) -> Result<u64> {
    let (sections, _) = print_of(Command::new("size").arg("-A").args(files))?;
    let mut bytes = 0;
    for line in sections.lines().filter(|line| line.starts_with(".rodata")) {
        let size = line.split_whitespace().nth(1);
        bytes += size.ok_or("size prints no size")?.parse::<u64>()?;
    }
    Ok(bytes)
}

/// A program's disassembly.
pub fn disassembly(program: &Path) -> Result<String> {
    let mut objdump = Command::new("objdump");
    Ok(print_of(objdump.args(["-d", "--no-show-raw-insn"]).arg(program))?.0)
}

/// What `-fstack-usage` has noted beside the objects: functions and bytes.
pub fn stack_usage(objects: &[PathBuf]) -> Result<Vec<(String, String)>> {
    let mut found = Vec::new();
    for object in objects {
        for line in fs::read_to_string(object.with_extension("su"))?.lines() {
            let mut columns = line.split('\t');
            let place = columns.next().unwrap_or_default();
            let name = place.rsplit(':').next().unwrap_or_default().to_string();
            found.push((name, columns.next().unwrap_or_default().to_string()));
        }
    }
    Ok(found)
}
