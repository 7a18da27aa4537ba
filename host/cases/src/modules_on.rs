//! The cases of `modules_on.txt`: how many modules are on.

use crate::line::hex;
use crate::{read, text, Board, Case, Line, Result};

/// All cases of the file.
pub fn cases() -> Result<Vec<Case>> {
    let words = ["from", "image", "damage", "answer", "count"];
    read(&text("modules_on.txt")?, &words)
}

/// The masks by the names that they have in the file, and where an image has them.
const MASKS: [(&str, usize); 3] = [("requested", 52), ("on", 53), ("failed", 54)];

/// Makes the call of a case, which gives its answer and how many are on: what came out
/// otherwise, if it did.
pub fn check(case: &Case, board: &Board, modules_on: impl Fn(&[u8]) -> (u8, usize)) -> Result<()> {
    let mut image = board.start(case)?;
    if let Some(line) = case.optional("damage")? {
        damage(&mut image, line)?;
    }
    let given = modules_on(&image);
    let wanted = (case.one("answer")?.number()?, case.one("count")?.number()?);
    match given == wanted {
        true => Ok(()),
        false => Err(format!("case at line {}: {given:?}", case.place())),
    }
}

/// Turns the bits of a mask that the line says.
fn damage(image: &mut [u8], line: &Line) -> Result<()> {
    let turned = match &line.values[..] {
        [name, bits] => {
            let mask = MASKS.iter().find(|(own, _)| own == name);
            mask.zip(hex(bits))
        }
        _ => None,
    };
    match turned {
        Some(((_, place), bits)) if bits.len() == 1 && *place < image.len() => {
            image[*place] ^= bits[0];
            Ok(())
        }
        _ => Err(line.wrong("a mask and a byte in hex")),
    }
}
