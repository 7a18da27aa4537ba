//! The board's state, read off an image.

mod layout;
mod masks;
mod supply;

pub use layout::{fields, Field, BYTES, LAYOUT};
pub use supply::Power;

use crate::morse;
use crate::words::{hex, list, modules, thousands, visible};
use ems::{Mode, Module};
use layout::{
    of_end, of_module, Says, Watch, ANTENNAS, ASCEND, BEACON, CONTROL, DESCEND, FAILED, GROUND,
    LENGTH, MODE, ON, PAYLOAD, REPEATS, REQUESTED, TENSION, TEXT,
};
use supply::Supply;

/// What a board in DEPLOY_WAIT does.
#[derive(Clone, Copy, Debug, PartialEq, Eq)]
pub enum Phase {
    Waiting,
    Settling,
    /// It is in another mode.
    Over,
}

/// A copy of the image.
#[derive(Clone, Copy, Debug, PartialEq, Eq)]
pub struct Image([u8; BYTES]);

impl Image {
    /// The library's image of a state.
    pub fn of(bytes: &[u8; BYTES]) -> Image {
        Image(*bytes)
    }

    /// Bytes that may be an image, if there are as many as it has.
    pub fn maybe(bytes: &[u8]) -> Option<Image> {
        bytes.try_into().ok().map(Image)
    }

    /// All of its bytes.
    pub fn whole(&self) -> &[u8; BYTES] {
        &self.0
    }

    /// A field's own bytes.
    pub fn bytes(&self, field: &Field) -> &[u8] {
        &self.0[field.at..field.at + field.bytes]
    }

    /// A field's number.
    pub fn number(&self, field: &Field) -> u32 {
        let bytes = self.bytes(field).iter().rev();
        bytes.fold(0, |number, &byte| 256 * number + u32::from(byte))
    }

    /// What a field says; none where no state has it.
    pub fn says(&self, field: &Field) -> Option<String> {
        match field.says {
            Says::Number { said, .. } => said(self.number(field)),
            Says::Text if self.unkept().is_some() => None,
            Says::Text if self.text().is_some_and(<[u8]>::is_empty) => Some("none".to_string()),
            Says::Text => Some(self.shown(field)),
            Says::Mask => Some(list(&modules(self.mask(field)))),
        }
    }

    /// A field as it stands, also where no state has it.
    pub fn shown(&self, field: &Field) -> String {
        match field.says {
            Says::Number { .. } => thousands(u64::from(self.number(field))),
            Says::Text => quoted(self.text().unwrap_or(self.bytes(field))),
            Says::Mask => hex(self.bytes(field)),
        }
    }

    /// Why this is no state's image, field by field: nothing, if it is.
    pub fn faults(&self) -> Vec<(Field, String)> {
        let stray = |field: Field| match field.says {
            Says::Number { said, range } => {
                let not_said = said(self.number(&field)).is_none();
                not_said.then(|| (field, format!("not {range}")))
            }
            Says::Text => self.unkept().map(|why| (field, why)),
            Says::Mask => None,
        };
        let strays: Vec<(Field, String)> = fields().filter_map(stray).collect();
        match strays.is_empty() {
            true => self.disagreements(),
            false => strays,
        }
    }

    /// Why no state keeps this greeting; nothing, if its length is the fault.
    fn unkept(&self) -> Option<String> {
        let text = self.text()?;
        let past = &self.bytes(&TEXT)[text.len()..];
        let filled = || past.iter().any(|&byte| byte != 0);
        match morse::fault(text) {
            Some(fault) => Some(format!("which can't be keyed: {fault}")),
            None => filled().then(|| "with a byte past its length that is not 0".to_string()),
        }
    }

    /// Fields, each in its range, that no state has with the others.
    fn disagreements(&self) -> Vec<(Field, String)> {
        let mut faults = Vec::new();
        if self.watch().mode() == Mode::DeployWait {
            let counting = [CONTROL, BEACON].into_iter();
            let counting = counting.filter(|field| self.number(field) != 0);
            faults.extend(
                counting.map(|field| (field, format!("not 0, as in {}", Mode::DeployWait))),
            );
        }
        if self.descend() > self.ascend() {
            faults.push((DESCEND, "above ascend".to_string()));
        }
        faults.extend(masks::disagreements(self));
        faults
    }

    /// The mode; a number that no mode has is taken for the first one's.
    fn watch(&self) -> Watch {
        Watch::of(self.number(&MODE)).unwrap_or(Watch::Waiting(0))
    }

    pub fn mode(&self) -> u8 {
        self.watch().mode().number()
    }

    pub fn phase(&self) -> Phase {
        match self.watch() {
            Watch::Waiting(_) => Phase::Waiting,
            Watch::Settling(_) => Phase::Settling,
            Watch::Recovery | Watch::Safe => Phase::Over,
        }
    }

    pub fn deployed(&self) -> bool {
        self.number(&ANTENNAS) == 1
    }

    /// Millivolts; 0 before any reading.
    pub fn tension(&self) -> u16 {
        self.two(&TENSION)
    }

    pub fn ascend(&self) -> u16 {
        self.two(&ASCEND)
    }

    pub fn descend(&self) -> u16 {
        self.two(&DESCEND)
    }

    /// An origin's last serial: 1 is the ground, 2 the payload.
    pub fn serial(&self, origin: u8) -> u16 {
        let ground = origin == 1;
        self.two(if ground { &GROUND } else { &PAYLOAD })
    }

    /// A module's power; a number that no power has is taken for failed.
    pub fn power(&self, module: Module) -> Power {
        let supply = self.supply(module);
        supply.map_or(Power::Failed(0), |supply| supply.power)
    }

    fn supply(&self, module: Module) -> Option<Supply> {
        Supply::of(self.number(&of_module(module)))
    }

    /// The seconds until a module's request goes off; 0 where no end is running.
    pub fn end(&self, module: Module) -> u32 {
        of_end(module).map_or(0, |field| self.number(&field))
    }

    /// The greeting that is kept, if there is one.
    pub fn greeting(&self) -> Option<&[u8]> {
        self.text().filter(|text| !text.is_empty())
    }

    /// How many beacons the greeting is still for.
    pub fn repeats(&self) -> u64 {
        u64::from(self.number(&REPEATS))
    }

    /// As much of the greeting's bytes as its length says, if there are so many.
    fn text(&self) -> Option<&[u8]> {
        let length = self.number(&LENGTH) as usize;
        self.bytes(&TEXT).get(..length)
    }

    /// The modules that are requested on, as a mask.
    pub fn requests(&self) -> u8 {
        self.mask(&REQUESTED)
    }

    /// The modules that are on, as a mask.
    pub fn on(&self) -> u8 {
        self.mask(&ON)
    }

    /// The modules that have failed, as a mask.
    pub fn failed(&self) -> u8 {
        self.mask(&FAILED)
    }

    fn mask(&self, field: &Field) -> u8 {
        self.number(field) as u8
    }

    fn two(&self, field: &Field) -> u16 {
        self.number(field) as u16
    }
}

/// A text in quotes, as it is shown.
pub fn quoted(text: &[u8]) -> String {
    let text = String::from_utf8_lossy(text);
    format!("\"{}\"", visible(&text))
}

#[cfg(test)]
mod tests {
    use super::*;
    use ems::{Craft, MESSAGE_BYTES};
    use model::image::save;
    use model::message::Message;
    use model::state::{self, Last, State};
    use model::table::MISSION;

    /// Reads a state's image, and compares it with the state.
    fn is_read(state: &State) {
        let image = Image::of(&save(state));
        assert!(image.faults().is_empty());
        let phase = match state.mode {
            state::Mode::Waiting(_) => Phase::Waiting,
            state::Mode::Settling(_) => Phase::Settling,
            state::Mode::Recovery | state::Mode::Safe => Phase::Over,
        };
        assert_eq!((image.mode(), image.phase()), (state.mode.number(), phase));
        assert_eq!(image.deployed(), state.antennas);
        assert_eq!(image.tension(), state.tension);
        assert_eq!(image.ascend(), state.ascend);
        assert_eq!(image.descend(), state.descend);
        for origin in [1, 2] {
            assert_eq!(image.serial(origin), state.last.of(origin));
        }
        assert_eq!(image.greeting(), state.message.text());
        assert_eq!(image.repeats(), u64::from(state.message.repeats));
        for (module, own) in Module::ALL.into_iter().zip(&state.modules) {
            let power = match own.power {
                state::Power::On { tries, seconds } => Power::On { tries, seconds },
                state::Power::Off(tries) => Power::Off(tries),
                state::Power::Failed(left) => Power::Failed(left),
            };
            assert_eq!(image.power(module), power, "{module}");
            let end = state.ends.iter().zip(MISSION);
            let end = end.filter(|(_, own)| *own == module.number());
            assert_eq!(image.end(module), end.map(|(end, _)| end).sum(), "{module}");
        }
        assert_eq!(image.requests(), state.masks.requested);
        assert_eq!(image.on(), state.masks.on);
        assert_eq!(image.failed(), state.masks.failed);
    }

    #[test]
    fn an_image_is_read_as_the_model_writes_it() {
        let fresh = State::fresh();
        assert_eq!(save(&fresh), *Craft::fresh().image());
        is_read(&fresh);
        let mut state = State {
            antennas: true,
            tension: 7_450,
            ascend: 7_601,
            descend: 6_802,
            last: Last {
                ground: 0x1122,
                payload: 0x3344,
            },
            message: Message {
                repeats: 200,
                length: 13,
                bytes: *b"HELLO FROM 4B\0\0\0",
            },
            ends: [1, 1_200, 86_399, 86_400],
            ..fresh
        };
        use state::Mode::{Recovery, Safe, Settling, Waiting};
        for mode in [Waiting(86_399), Settling(900), Settling(1), Recovery, Safe] {
            state.mode = mode;
            is_read(&state);
        }
        for powers in powers().chunks(state.modules.len()) {
            for (module, power) in state.modules.iter_mut().zip(powers) {
                module.power = *power;
            }
            state.gather_masks();
            is_read(&state);
        }
    }

    /// Every power that a module can have.
    fn powers() -> Vec<state::Power> {
        use state::Power::{Failed, Off, On};
        let some = (1..=4).flat_map(|tries| (0..60).map(move |seconds| On { tries, seconds }));
        let all = On {
            tries: 5,
            seconds: 0,
        };
        some.chain([all])
            .chain((1..=5).map(Off))
            .chain((0..=600).map(Failed))
            .collect()
    }

    #[test]
    fn the_fields_follow_each_other_to_the_end() {
        let end = fields().fold(0, |end, field| {
            assert_eq!(field.at, end, "{}", field.name);
            end + field.bytes
        });
        assert_eq!(end, BYTES);
    }

    /// The library and this table refuse the same images: every field with the
    /// numbers around the ends of its ranges, and others.
    #[test]
    fn the_library_has_the_same_images() {
        let near = [
            0, 60, 240, 300, 846, 5_000, 9_000, 32_768, 33_008, 33_614, 65_535, 86_400, 87_300,
        ];
        let near = near
            .into_iter()
            .flat_map(|n: u32| n.saturating_sub(9)..n + 9);
        let far = (1 << 24..u32::MAX).step_by(9_999_991).chain([u32::MAX]);
        let numbers: Vec<u32> = near.chain((0..1 << 24).step_by(4_999)).chain(far).collect();
        let fresh = Image::of(Craft::fresh().image());
        let number = |field: &Field| matches!(field.says, Says::Number { .. });
        for start in [fresh, put(fresh, &MODE, 87_301)] {
            for field in fields().filter(number) {
                let fits = |n: &&u32| u64::from(**n) >> (8 * field.bytes) == 0;
                for &number in numbers.iter().filter(fits) {
                    let image = put(start, &field, number);
                    let taken = Craft::from_image(&image.0).is_some();
                    let fine = image.faults().is_empty();
                    assert_eq!(fine, taken, "{} {number}", field.name);
                }
            }
        }
    }

    /// So they do where a greeting is kept: with every length and every byte in it and
    /// past it, and with the spaces that a text may not have.
    #[test]
    fn the_library_keeps_the_same_greetings() {
        let fresh = Image::of(Craft::fresh().image());
        let kept = |length: u8, text: &[u8; MESSAGE_BYTES]| {
            let mut image = put(fresh, &LENGTH, length.into());
            image.0[TEXT.at..TEXT.at + TEXT.bytes].copy_from_slice(text);
            let taken = Craft::from_image(&image.0).is_some();
            let fine = image.faults().is_empty();
            assert_eq!(fine, taken, "{length} of {text:?}");
            fine
        };
        let mut fine = 0;
        for text in [
            b"HELLO FROM 4B\0\0\0",
            b"HELLO FROM 4B 73",
            b"A  B\0\0\0\0\0\0\0\0\0\0\0\0",
            b" AB \0\0\0\0\0\0\0\0\0\0\0\0",
            &[0; MESSAGE_BYTES],
        ] {
            for length in 0..=u8::MAX {
                fine += u32::from(kept(length, text));
            }
            for at in 0..MESSAGE_BYTES {
                for byte in 0..=u8::MAX {
                    let mut text = *text;
                    text[at] = byte;
                    fine += u32::from(kept(13, &text));
                }
            }
        }
        assert!(fine > 300, "{fine}");
    }

    /// An image with another number in a field.
    fn put(mut image: Image, field: &Field, number: u32) -> Image {
        let bytes = number.to_le_bytes();
        let own = image.0.iter_mut().skip(field.at).take(field.bytes);
        own.zip(bytes).for_each(|(byte, new)| *byte = new);
        image
    }
}
