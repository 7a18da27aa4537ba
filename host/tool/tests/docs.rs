//! The documents: every `pass` block is a script, and every command of a
//! `console` block gives what stands under it. `...` stands for any lines.

mod common;

use ::ems::{answer, Craft, REPORT_BYTES};
use common::{ems, fed, place, root, run, scratch, COMMANDS};
use model::image;
use std::os::unix::fs::symlink;
use std::path::{Path, PathBuf};
use std::process::Command;
use std::{env, fs};

/// The blocks of a document that are marked with a word.
fn blocks(document: &str, mark: &str) -> Vec<String> {
    let text = fs::read_to_string(root().join(document)).expect("the document is there");
    let begin = format!("```{mark}\n");
    let blocks = text.split(&begin).skip(1);
    let until_end = |block: &str| block.split("```").next().unwrap_or_default().to_string();
    blocks.map(until_end).collect()
}

/// Whether lines are as wanted, `...` being any.
fn alike(wanted: &[&str], given: &[&str]) -> bool {
    match (wanted, given) {
        (["...", rest @ ..], _) => (0..=given.len()).any(|at| alike(rest, &given[at..])),
        ([first, rest @ ..], [line, more @ ..]) => first == line && alike(rest, more),
        ([], []) => true,
        _ => false,
    }
}

/// A folder to run a document's commands in, as if it were the repository's, with
/// the document's C in `board.c`.
fn folder(document: &str) -> PathBuf {
    let folder = PathBuf::from(place("shell"));
    fs::create_dir_all(folder.join("target")).expect("a folder");
    let link = |to: &Path, name: &str| symlink(to, folder.join(name)).expect("a link");
    link(&ems(), "ems");
    let root = root().canonicalize().expect("a path");
    link(&root.join("examples"), "examples");
    link(&root.join("include"), "include");
    link(&library_folder(), "target/staticlib");
    let code = blocks(document, "c").concat();
    fs::write(folder.join("board.c"), code).expect("a file");
    folder
}

/// Where the library is that the tool is linked with.
fn library_folder() -> PathBuf {
    let own = || root().join("target/staticlib");
    let folder = env::var_os("EMS_LIB_DIR").map_or_else(own, PathBuf::from);
    folder.canonicalize().expect("the library is built")
}

/// Runs the commands of a document's blocks; gives how many.
fn run_document(document: &str) -> usize {
    let folder = folder(document);
    let mut commands = 0;
    for block in blocks(document, "console") {
        for exchange in format!("\n{block}").split("\n$ ").skip(1) {
            let (command, wanted) = exchange.split_once('\n').unwrap_or((exchange, ""));
            let shell = Command::new("bash")
                .args(["-c", &format!("exec 2>&1\n{command}")])
                .current_dir(&folder)
                .output()
                .expect("bash runs");
            let given = String::from_utf8_lossy(&shell.stdout);
            let wanted: Vec<&str> = wanted.lines().collect();
            let lines: Vec<&str> = given.lines().collect();
            assert!(alike(&wanted, &lines), "{document}: {command}\n{given}");
            commands += 1;
        }
    }
    commands
}

/// A newcomer's first command tells a story, and not ten thousand lines.
#[test]
fn the_readme_s_first_command_is_short() {
    let blocks = blocks("README.md", "sh").concat();
    let commands = blocks
        .lines()
        .filter_map(|line| line.strip_prefix("./ems "));
    let commands: Vec<&str> = commands.collect();
    assert!(!commands.is_empty());
    for command in commands {
        let words = command.split('#').next().unwrap_or_default();
        let ran = run(&words.split_whitespace().collect::<Vec<&str>>()).status(0);
        assert!(ran.text().lines().count() < 50, "{command}");
    }
}

#[test]
fn commands_of_the_readme_give_what_stands_there() {
    assert!(run_document("README.md") >= 1);
}

#[test]
fn commands_of_pass_scripts_give_what_stands_there() {
    assert!(run_document("docs/PASS-SCRIPTS.md") >= 30);
}

#[test]
fn commands_of_the_panel_tracker_give_what_stands_there() {
    assert!(run_document("docs/PANEL-TRACKER.md") >= 6);
}

#[test]
fn commands_of_the_icd_give_what_stands_there() {
    assert!(run_document("docs/ICD.md") >= 11);
}

#[test]
fn every_script_in_a_document_runs() {
    let scripts = blocks("docs/PASS-SCRIPTS.md", "pass");
    assert!(!scripts.is_empty());
    for script in scripts {
        fed(&["log", "--as", "script", "-"], script.as_bytes()).status(0);
    }
}

/// The table of lines and bytes says what each line sends.
#[test]
fn the_table_of_lines_is_right() {
    let text = fs::read_to_string(root().join("docs/PASS-SCRIPTS.md")).expect("the document");
    let mut rows = 0;
    for row in text.lines().filter(|line| line.starts_with("| `")) {
        let cells: Vec<&str> = row.split('|').map(str::trim).collect();
        let quoted = |cell: &str| -> Vec<String> {
            let parts = cell.split('`').skip(1).step_by(2);
            parts.map(str::to_string).collect()
        };
        let pairs = quoted(cells[1]).into_iter().zip(quoted(cells[3]));
        for (line, bytes) in pairs {
            let sent = fed(&["frames", "-", "-o", "-"], line.as_bytes())
                .status(0)
                .out;
            let hex: Vec<String> = sent.iter().map(|byte| format!("{byte:02X}")).collect();
            let once = bytes.split(' ').count();
            assert!(
                hex.chunks(once).all(|chunk| chunk.join(" ") == bytes),
                "{line}"
            );
            rows += 1;
        }
    }
    assert_eq!(rows, 13);
}

#[test]
fn the_icd_s_fresh_image_is_the_library_s() {
    let blocks = blocks("docs/ICD.md", "image");
    let bytes = blocks.iter().flat_map(|block| block.split_whitespace());
    let bytes: Vec<u8> = bytes
        .map(|byte| u8::from_str_radix(byte, 16).expect("a byte"))
        .collect();
    assert_eq!(bytes, Craft::fresh().image());
}

/// Compiles C that stands in a file, with the library; gives the program.
fn compiled(file: &str, flags: &[&str]) -> String {
    let program = place("program");
    let ran = Command::new("cc")
        .args(["-std=c99", "-Wall", "-Wextra", "-Werror", "-Iinclude"])
        .args(flags)
        .arg(file)
        .arg(library_folder().join("libflight.a"))
        .args(["-o", &program])
        .current_dir(root())
        .output()
        .expect("cc runs");
    assert!(
        ran.status.success(),
        "{}",
        String::from_utf8_lossy(&ran.stderr)
    );
    program
}

/// What a program prints.
fn printed(program: &str, args: &[&str]) -> String {
    let ran = Command::new(program).args(args).output().expect(program);
    assert!(ran.status.success(), "{program}: {}", ran.status);
    String::from_utf8(ran.stdout).expect("text")
}

#[test]
fn the_icd_s_c_compiles_without_a_warning() {
    let code = blocks("docs/ICD.md", "c").concat();
    compiled(&scratch("icd.c", code), &["-pedantic"]);
}

/// "Linking" says what else must be linked, and that there is no memory in it.
#[test]
fn the_library_needs_what_the_icd_says() {
    let library = library_folder().join("libflight.a");
    let symbols = printed("nm", &[library.to_str().expect("text")]);
    let named = |kinds: &str| -> Vec<&str> {
        let words = symbols.lines().map(|line| line.split_whitespace().rev());
        let rows = words.filter_map(|mut words| Some((words.next()?, words.next()?)));
        let own = rows.filter(|(_, kind)| kind.len() == 1 && kinds.contains(kind));
        own.map(|(name, _)| name).collect()
    };
    let text = fs::read_to_string(root().join("docs/ICD.md")).expect("the document");
    let row = text
        .lines()
        .find(|line| line.starts_with("| what else must be linked?"));
    let row = row.expect("the ICD says what else must be linked");
    let said: Vec<&str> = row.split('`').skip(1).step_by(2).collect();
    assert_eq!(named("U"), said);
    assert!(named("BbDdCGgSs").is_empty(), "{symbols}");
    let said: Vec<String> = stacks().into_iter().map(|(call, _)| call).collect();
    let mut calls = named("T");
    calls.sort_by_key(|call| said.iter().position(|said| said == call));
    assert_eq!(calls, said);
}

#[test]
fn the_library_is_for_the_processor_that_the_icd_says() {
    let library = library_folder().join("libflight.a");
    let header = printed("readelf", &["-h", library.to_str().expect("text")]);
    assert!(
        header.contains("X86-64") && header.contains("System V"),
        "{header}"
    );
    let text = fs::read_to_string(root().join("docs/ICD.md")).expect("the document");
    assert!(text.contains("| for which processors? | x86-64 alone"));
}

/// The ICD's table of the stack that each call takes.
fn stacks() -> Vec<(String, u64)> {
    let text = fs::read_to_string(root().join("docs/ICD.md")).expect("the document");
    let (_, table) = text
        .split_once("| call | bytes of stack |\n")
        .expect("the table");
    let rows = table
        .lines()
        .skip(1)
        .take_while(|line| line.starts_with("| `ems_"));
    let cells = rows.map(|row| row.split('|').map(str::trim).collect::<Vec<&str>>());
    cells
        .map(|cells| {
            let bytes = cells[2].replace(',', "").parse().expect("a number");
            (cells[1].trim_matches('`').to_string(), bytes)
        })
        .collect()
}

/// Each call, run on a stack that was painted before, leaves as much as the table
/// and the sentence above it say.
#[test]
fn the_stack_that_the_icd_gives_is_enough() {
    const RED_ZONE: u64 = 128;
    // What the functions of the measurement take that make the calls.
    const OWN: u64 = 64;
    let measured = printed(&compiled("host/tool/tests/stack.c", &["-O2"]), &[]);
    let measured: Vec<(&str, u64)> = measured
        .lines()
        .filter_map(|line| line.split_once(' '))
        .map(|(call, bytes)| (call, bytes.parse().expect("a number")))
        .collect();
    let said = stacks();
    assert_eq!(measured.len(), said.len());
    assert!(measured.iter().any(|(_, taken)| *taken > 0));
    for ((call, taken), (named, said)) in measured.into_iter().zip(said) {
        assert_eq!(call, named);
        assert!(
            taken <= said + RED_ZONE + OWN,
            "{call} took {taken} bytes, not {said}"
        );
    }
}

/// No document for outsiders speaks of papers that they haven't got.
#[test]
fn every_word_can_be_looked_up() {
    let commands = ["--help"].into_iter().chain(COMMANDS);
    let help = commands.map(|command| run(&[command, "--help"]).status(0).text().to_string());
    let help: Vec<String> = help.collect();
    let text = |document: &str| fs::read_to_string(root().join(document)).expect("the document");
    let documents = [
        "docs/ICD.md",
        "docs/PANEL-TRACKER.md",
        "docs/PASS-SCRIPTS.md",
        "include/ems.h",
    ]
    .map(text);
    for said in documents.iter().chain(&help) {
        let words = said
            .to_lowercase()
            .split_whitespace()
            .collect::<Vec<&str>>()
            .join(" ");
        for unknown in ["the page", "wish ", "document 0", "demand ", "source 0"] {
            assert!(!words.contains(unknown), "{unknown:?} in {}", &said[..60]);
        }
    }
}

/// "Numbering orders", the way back after 9, however far the board is ahead.
#[test]
fn the_way_back_after_9_is_found() {
    let send = |board: &mut Craft, serial: u16| {
        let [high, low] = serial.to_be_bytes();
        board.step(&[0x04, 1, high, low, 0, 1], &mut [0; REPORT_BYTES])
    };
    let own: u16 = 65_000;
    for ahead in 1..=32_768 {
        let mut board = Craft::fresh();
        // To the other console's number, in steps that are fresh.
        assert_eq!(send(&mut board, 32_767), answer::DONE);
        assert_eq!(send(&mut board, own), answer::DONE);
        for step in [ahead / 2, ahead - ahead / 2] {
            let state = image::load(board.image()).expect("a state in range");
            send(&mut board, state.last.ground.wrapping_add(step));
        }
        assert_eq!(send(&mut board, own), answer::STALE, "{ahead}");
        let jump = own.wrapping_add(32_767);
        let taken = match send(&mut board, jump) {
            answer::DONE => true,
            answer::REPEAT => ahead == 32_767 && send(&mut board, jump.wrapping_add(2)) == 0,
            _ => ahead == 32_768 && send(&mut board, jump.wrapping_add(2)) == 0,
        };
        assert!(taken, "{ahead}");
    }
}
