//! Flights from a seed in which modules short some seconds after each start, about
//! the 60 that bring their tries back, and are switched off on purpose between.

use crate::images;
use crate::rng::Rng;
use crate::shrink::Shot;
use model::state::{Mode, Power, CLEAN_SECONDS};
use model::table::{FROM_GROUND, HIGHEST, MODULES, ORDER, TICK};
use model::{report, step, State};

/// Frames of a flight: enough that modules fail, and are started again.
const FRAMES: u16 = 2_000;

/// A second that no flight gets to.
const NEVER: u16 = FRAMES + 1;

/// The second after its start in which a module shorts.
const LIVES: [u16; 8] = [
    1,
    CLEAN_SECONDS / 2,
    CLEAN_SECONDS - 1,
    CLEAN_SECONDS,
    CLEAN_SECONDS,
    CLEAN_SECONDS + 1,
    NEVER,
    NEVER,
];

/// A board, and for each module the seconds until it shorts.
struct Board {
    state: State,
    lives: [u16; 8],
}

/// A state in RECOVERY or SAFE, charged, and frames for it.
pub fn flight(rng: &mut Rng) -> (State, Vec<Shot>) {
    let mode = rng.pick(&[Mode::Recovery, Mode::Safe, Mode::Safe]);
    let mut state = images::state_in(rng, mode);
    state.tension = HIGHEST;
    let mut board = Board {
        state: state.clone(),
        lives: std::array::from_fn(|_| rng.pick(&LIVES)),
    };
    let shots = (0..FRAMES).map(|_| board.next(rng)).collect();
    (state, shots)
}

impl Board {
    /// The next frame, a tick mostly.
    fn next(&mut self, rng: &mut Rng) -> Shot {
        let frame = match rng.below(20) {
            0 => self.order(rng),
            _ => vec![TICK, self.shorts(rng)],
        };
        let report = step::step(&mut self.state, &frame, report::BYTES);
        report.expect("each frame is reported on");
        (frame, report::BYTES as u8)
    }

    /// An order of the ground for any module, "on" mostly.
    fn order(&self, rng: &mut Rng) -> Vec<u8> {
        let [high, low] = self.state.last.ground.wrapping_add(1).to_be_bytes();
        let wanted = u8::from(!rng.once_in(3));
        vec![ORDER, FROM_GROUND, high, low, rng.below(8) as u8, wanted]
    }

    /// The shorts of a second: of modules that are on as their lives say, of others
    /// at times.
    fn shorts(&mut self, rng: &mut Rng) -> u8 {
        let modules = self.state.modules.iter().zip(&mut self.lives);
        let mut shorts = 0;
        for ((module, life), row) in modules.zip(&MODULES) {
            let short = match module.power {
                Power::On { .. } => {
                    *life -= 1;
                    *life == 0
                }
                Power::Off(_) | Power::Failed(_) => {
                    *life = rng.pick(&LIVES);
                    rng.once_in(6)
                }
            };
            if short {
                shorts |= row.bit();
            }
        }
        shorts
    }
}
