//! A real listener: beacons, and every sign, keyed by the library, as sound,
//! written down again by two programs that nobody here wrote, Debian's
//! `multimon-ng` and `morse2ascii`.

use ems::{
    answer, Craft, BEACON_BASIC_BYTES, BEACON_COMPLETE_BYTES, BEACON_EXTENDED_BYTES, REPORT_BYTES,
    UNITS_BYTES,
};
use std::io::{self, Write};
use std::{env, fs, path::Path, process::Command};

const SPEEDS: [u32; 3] = [12, 18, 25];
const TONE_HZ: u32 = 700;

/// Every sign once.
const SIGNS: &[u8] = b"0123456789 ABCDEFGHIJKLM NOPQRSTUVWXYZ .,?/";

/// Writes down a WAV file that is keyed at a speed.
type Listener = fn(&Path, u32) -> io::Result<Vec<u8>>;

/// `multimon-ng` takes bare samples, to which the header's 22 are nothing, and
/// is told about how long a dot is.
fn multimon(file: &Path, wpm: u32) -> io::Result<Vec<u8>> {
    let dot = (1_200 / wpm).to_string();
    let mut command = Command::new("multimon-ng");
    command.args(["-q", "-a", "MORSE_CW", "-t", "raw"]);
    command.args(["-d", &dot, "-g", &dot]).arg(file);
    Ok(command.output()?.stdout)
}

fn morse2ascii(file: &Path, _: u32) -> io::Result<Vec<u8>> {
    Ok(Command::new("morse2ascii").arg(file).output()?.stdout)
}

/// What was written down, in capitals, words one space apart.
fn words(written: &[u8]) -> String {
    let text = String::from_utf8_lossy(written).to_uppercase();
    let words: Vec<&str> = text
        .split(|c: char| c.is_whitespace() || c == '\0')
        .filter(|word| !word.is_empty())
        .collect();
    words.join(" ")
}

/// Frames, one after the other, each of which must be done.
fn send(craft: &mut Craft, frame: &[u8], times: usize) {
    for _ in 0..times {
        let mut room = [0; REPORT_BYTES];
        assert_eq!(craft.step(frame, &mut room), answer::DONE);
    }
}

/// A greeting from ground, for one beacon: sixteen characters.
const GREETING: &[u8] = b"\x07\x01\x00\x01\x01\x10HELLO FROM 4B 73";

/// Both beacons of boards in every mode, with modules on and failed; and an
/// extended one, as long as it can be.
fn beacons() -> Vec<Vec<u8>> {
    let mut craft = Craft::fresh();
    let mut texts = said(&craft);
    send(&mut craft, &[0x03, 1], 1);
    send(&mut craft, &[0x01, 0], 902);
    send(&mut craft, &[0x02, 0x1B, 0x58], 1);
    texts.extend(said(&craft));
    send(&mut craft, &[0x02, 0x21, 0x34], 1);
    send(&mut craft, &[0x01, 0x26], 60);
    texts.extend(said(&craft));
    send(&mut craft, GREETING, 1);
    texts.push(greeted(&craft));
    let known: [&[u8]; 3] = [
        b"EMS R 7000 27 00",
        b"EMS S 8500 01 26",
        b"EMS S 8500 01 26 HELLO FROM 4B 73",
    ];
    for text in known {
        assert!(texts.iter().any(|own| own == text));
    }
    texts
}

fn said(craft: &Craft) -> Vec<Vec<u8>> {
    let mut basic = vec![0; BEACON_BASIC_BYTES];
    let mut complete = vec![0; BEACON_COMPLETE_BYTES];
    let done = |text: &[u8]| (answer::DONE, text.len());
    assert_eq!(craft.beacon_basic(&mut basic), done(&basic));
    assert_eq!(craft.beacon_complete(&mut complete), done(&complete));
    vec![basic, complete]
}

fn greeted(craft: &Craft) -> Vec<u8> {
    let mut extended = vec![0; BEACON_EXTENDED_BYTES];
    let done = (answer::DONE, extended.len());
    assert_eq!(craft.beacon_extended(&mut extended), done);
    extended
}

/// Has a listener write down every beacon and every sign, at every speed.
fn hear(name: &str, listener: Listener) {
    let folder = Path::new(env!("CARGO_TARGET_TMPDIR"));
    let file = folder.join(format!("{name}.wav"));
    for text in beacons().into_iter().chain([SIGNS.to_vec()]) {
        let mut units = [0; UNITS_BYTES];
        let (given, count) = ems::key(&text, &mut units);
        assert_eq!(given, answer::DONE);
        for wpm in SPEEDS {
            let sound = sound::wav(&units[..count], wpm, TONE_HZ);
            fs::write(&file, sound).expect("the sound can be written");
            match listener(&file, wpm) {
                Err(error) if error.kind() == io::ErrorKind::NotFound => return skip(name),
                Err(error) => panic!("{name}: {error}"),
                Ok(heard) => {
                    let sent = String::from_utf8_lossy(&text);
                    assert_eq!(words(&heard), sent, "{name} at {wpm} WPM");
                }
            }
        }
    }
}

/// A listener that isn't there: a failure in the gate, a message elsewhere.
fn skip(name: &str) {
    let why = format!("{name} isn't installed (Debian package {name}): nothing was heard");
    assert!(env::var("CI").as_deref() != Ok("true"), "{why}");
    // Straight to standard error: what `eprintln!` says is kept back in a test.
    let _ = writeln!(io::stderr(), "skipped: {why}");
}

#[test]
fn multimon_writes_down_all_of_it() {
    hear("multimon-ng", multimon);
}

#[test]
fn morse2ascii_writes_down_all_of_it() {
    hear("morse2ascii", morse2ascii);
}
