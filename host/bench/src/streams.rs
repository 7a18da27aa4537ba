//! What is measured: an image and books to start from, and inputs that go round.

use model::books::{Books, MOST_SECONDS, NUMBERS};
use model::message::Message;
use model::state::{Mode, Module, Power, END_SECONDS, TRIES};
use model::table::{
    BATTERY, FROM_GROUND, GREETING, MISSION, MODULES, ORDER, PAYLOAD, THRESHOLDS, TICK, TIMED,
};
use model::track::Reading;
use model::{calls, frame, image, report, State};

/// A row of the table.
pub struct Stream {
    /// What it says there.
    pub name: &'static str,
    /// What is called: `s` step, `b` step with books, `p` pass, `o` step for one frame of
    /// a pass after the other, `n` number of modules on, `m` summary of the books, `e`
    /// extended beacon, `k` key, `r` read, `t` tracker.
    pub call: u8,
    /// The image to start from.
    pub image: [u8; image::BYTES],
    /// The books to start from.
    pub books: Books,
    /// The inputs, one a call, over and over.
    pub inputs: Vec<Vec<u8>>,
    /// How many calls are counted: so many that the inputs, and the state's own
    /// counts, go round; fewer where a call is as the one before.
    pub counted: u64,
}

impl Stream {
    /// The stream as the drivers read it (`drive.c`).
    pub fn file(&self) -> Vec<u8> {
        let two = |number: usize| (number as u16).to_be_bytes();
        let mut file = vec![self.call];
        file.extend(self.image);
        file.extend(self.books.iter().flat_map(|number| number.to_le_bytes()));
        file.extend(two(self.inputs.len()));
        for input in &self.inputs {
            file.extend(two(input.len()));
            file.extend(input);
        }
        file
    }
}

/// 64 characters in words as long as a beacon's.
const TEXT: &[u8] = b"EMS S 8123 FF 00 THE QUICK BROWN FOX JUMPS OVER 1234567890 DOGS5";

/// 64 digits, each of the ten as often as any other, or once more.
const DIGITS: &[u8] = b"0123456789012345678901234567890123456789012345678901234567890123";

/// 64 punctuation marks, each of the four as often as any other.
const PUNCTUATION: &[u8] = b".,?/.,?/.,?/.,?/.,?/.,?/.,?/.,?/.,?/.,?/.,?/.,?/.,?/.,?/.,?/.,?/";

/// A board in a mode, charged so that it stays there, every module that may be
/// on is, and has all its tries.
fn board(mode: Mode) -> State {
    let mut state = State::fresh();
    state.mode = mode;
    state.tension = if mode == Mode::Safe { 8_000 } else { 7_200 };
    for module in &mut state.modules {
        let requested = module.requested || mode == Mode::Safe;
        let power = match requested && !mode.deploying() {
            true => Power::On {
                tries: TRIES,
                seconds: 0,
            },
            false => Power::Off(TRIES),
        };
        *module = Module { power, requested };
    }
    state.gather_masks();
    state
}

/// The same with all four ends running, so long that none runs out on the way.
fn ending(mode: Mode) -> State {
    let ends = [END_SECONDS; 4];
    State {
        ends,
        ..board(mode)
    }
}

/// A message as long as any.
const MESSAGE: Message = Message {
    repeats: u8::MAX,
    length: 16,
    bytes: *b"HELLO FROM EARTH",
};

/// The same with a message, so many times that each beacon on the way is extended.
fn greeted(mode: Mode) -> State {
    State {
        message: MESSAGE,
        ..board(mode)
    }
}

/// Volts and amps before a move and after it, the set point and the step.
type Move = ([u32; 4], u32, i32);

/// The moves that go round: up and down, the power rises, stays and falls; and past
/// either end, after a rise and after a fall.
const MOVES: [Move; 8] = [
    ([11_500, 3_900, 11_750, 3_984], 11_750, 250),
    ([12_000, 3_934, 12_250, 3_850], 12_250, 250),
    ([12_250, 3_850, 12_000, 3_934], 12_000, -250),
    ([12_000, 3_934, 11_750, 3_984], 11_750, -250),
    ([9_000, 3_067, 9_000, 3_067], 9_000, 250),
    ([19_650, 2_000, 19_900, 2_000], 19_900, 250),
    ([50, 4_000, 100, 1_900], 100, 250),
    ([350, 1_000, 100, 4_000], 100, -250),
];

/// A move as the drivers read it.
fn input_of((readings, set_point, step): &Move) -> Vec<u8> {
    let numbers = readings.iter().chain([set_point]);
    let bytes = numbers.flat_map(|number| number.to_le_bytes());
    bytes.chain(step.to_le_bytes()).collect()
}

/// Books that are just begun.
const BEGUN: Books = [0; NUMBERS];

/// Books of modules that were on always, never, and now and then; one was never seen, and
/// one has all that the books hold.
#[rustfmt::skip]
const MIXED: Books = [
    604_800, 0, 0,
    0, 604_800, 0,
    0, 0, 0,
    201_600, 201_600, 201_600,
    86_399, 518_400, 1,
    604_199, 0, 601,
    1, 604_799, 0,
    MOST_SECONDS, MOST_SECONDS, MOST_SECONDS,
];

/// How many passes go round.
const PASSES: u16 = 10;

/// A pass as the main computer collects it in 90 seconds of SAFE: their ticks, two
/// readings, and of the ground six orders, a timed one and thresholds. Serials are
/// 800 apart: each is fresh, also where the passes go round.
fn pass(i: u16) -> Vec<u8> {
    let [adcs, payload, sband1, sband2] = MISSION;
    let mut orders = [
        vec![ORDER, adcs, 1],
        vec![ORDER, payload, 1],
        vec![TIMED, sband2, 0, 20],
        vec![THRESHOLDS, 0x1D, 0x4C, 0x1B, 0x58],
        vec![ORDER, sband1, 1],
        vec![ORDER, sband1, 0],
        vec![ORDER, payload, 0],
        vec![ORDER, adcs, 0],
    ]
    .into_iter()
    .zip(8 * i + 1..);
    let mut frames = Vec::new();
    for second in 0..90 {
        if second % 45 == 0 {
            frames.extend([BATTERY, 0x1F, 0x40]);
        }
        if second % 11 == 5 {
            if let Some((order, number)) = orders.next() {
                let [high, low] = (800 * number).to_be_bytes();
                frames.extend([order[0], FROM_GROUND, high, low]);
                frames.extend(&order[1..]);
            }
        }
        frames.extend([TICK, 0x00]);
    }
    frames
}

/// All rows.
pub fn streams() -> Vec<Stream> {
    let frames = |name, call, board: State, inputs| Stream {
        name,
        call,
        image: image::save(&board),
        books: BEGUN,
        inputs,
        counted: 10_000,
    };
    let step = |name, board, inputs| frames(name, b's', board, inputs);
    let booked = |name, board, inputs| frames(name, b'b', board, inputs);
    let quiet = || vec![vec![TICK, 0x00]];
    // Every module is shorted in one second of 62: it starts again in the next, and the
    // other 60 are those after which it has all its tries.
    let shorts = || {
        let mut seconds = vec![vec![TICK, 0x00]; 62];
        seconds[0] = vec![TICK, 0xFF];
        seconds
    };
    let text = |name, call, input| Stream {
        name,
        call,
        image: image::save(&board(Mode::Safe)),
        books: BEGUN,
        inputs: vec![input],
        counted: 1_000,
    };
    let passes = |name, call| Stream {
        name,
        call,
        image: image::save(&board(Mode::Safe)),
        books: BEGUN,
        inputs: (0..PASSES).map(pass).collect(),
        counted: 100,
    };
    // 1,024 serials, 64 apart: each is fresh, also where they go round.
    let order = |i: u16| {
        let [high, low] = (64 * i).to_be_bytes();
        let wanted = (i % 2) as u8;
        vec![ORDER, FROM_GROUND, high, low, PAYLOAD, wanted]
    };
    let timed = |i: u16| {
        let [high, low] = (64 * i).to_be_bytes();
        vec![TIMED, FROM_GROUND, high, low, PAYLOAD, 0, 20]
    };
    let greeting = |i: u16| {
        let [high, low] = (64 * i).to_be_bytes();
        let Message {
            repeats, length, ..
        } = MESSAGE;
        let head = [GREETING, FROM_GROUND, high, low, repeats, length];
        [&head[..], &MESSAGE.bytes].concat()
    };
    let all = |order: fn(u16) -> Vec<u8>| (1..=1_024).map(|i| order(i % 1_024)).collect();
    let units = |text| model::morse::key(text).unwrap_or_default();
    vec![
        step("tick in DEPLOY_WAIT", board(Mode::Waiting(0)), quiet()),
        step(
            "tick in DEPLOY_WAIT, shorts",
            board(Mode::Waiting(0)),
            shorts(),
        ),
        booked(
            "tick in DEPLOY_WAIT, with books",
            board(Mode::Waiting(0)),
            quiet(),
        ),
        step("tick in RECOVERY", board(Mode::Recovery), quiet()),
        step("tick in RECOVERY, shorts", board(Mode::Recovery), shorts()),
        step("tick in SAFE", board(Mode::Safe), quiet()),
        step("tick in SAFE, shorts", board(Mode::Safe), shorts()),
        step(
            "tick in SAFE, four ends running",
            ending(Mode::Safe),
            quiet(),
        ),
        step("tick in SAFE, a message kept", greeted(Mode::Safe), quiet()),
        booked("tick in SAFE, with books", board(Mode::Safe), quiet()),
        step("order, done", board(Mode::Safe), all(order)),
        booked("order, done, with books", board(Mode::Safe), all(order)),
        step("timed order, done", board(Mode::Safe), all(timed)),
        step("greeting, done", board(Mode::Safe), all(greeting)),
        step(
            "battery, done",
            board(Mode::Safe),
            vec![vec![BATTERY, 0x1F, 0x40]],
        ),
        step(
            "battery, refused (6)",
            board(Mode::Safe),
            vec![vec![BATTERY, 0x13, 0x87]],
        ),
        passes("pass of 100 frames", b'p'),
        passes("the same 100 frames, one call each", b'o'),
        Stream {
            name: "modules on",
            call: b'n',
            image: image::save(&board(Mode::Safe)),
            books: BEGUN,
            inputs: vec![vec![]],
            counted: 1_000,
        },
        Stream {
            name: "summary of the books",
            call: b'm',
            // It is not looked at.
            image: image::save(&board(Mode::Safe)),
            books: MIXED,
            inputs: vec![vec![]],
            counted: 1_000,
        },
        Stream {
            name: "extended beacon of 33 characters",
            call: b'e',
            image: image::save(&greeted(Mode::Safe)),
            books: BEGUN,
            inputs: vec![vec![]],
            counted: 1_000,
        },
        Stream {
            name: "panel tracker",
            call: b't',
            // It is not looked at.
            image: image::save(&board(Mode::Safe)),
            books: BEGUN,
            inputs: MOVES.iter().map(input_of).collect(),
            counted: 10_000,
        },
        text("keying 64 characters", b'k', TEXT.to_vec()),
        text("reading 64 characters", b'r', units(TEXT)),
        text("keying 64 digits", b'k', DIGITS.to_vec()),
        text("reading 64 digits", b'r', units(DIGITS)),
        text("keying 64 punctuation marks", b'k', PUNCTUATION.to_vec()),
        text("reading 64 punctuation marks", b'r', units(PUNCTUATION)),
    ]
}

/// The model's drive: as `drive.c`, in Rust.
pub fn drive(stream: &Stream, calls: u64) -> (u128, u64) {
    let mut image = stream.image;
    let mut books = stream.books;
    let mut shares = [0; MODULES.len()];
    let mut room = [0; 2_048];
    let mut written = report::BYTES;
    let mut sum: u64 = 0;
    let mut inputs = stream.inputs.iter().cycle();
    let begin = std::time::Instant::now();
    for call in 0..calls {
        if call % 10_000 == 0 {
            image = stream.image;
            books = stream.books;
            inputs = stream.inputs.iter().cycle();
        }
        let input = inputs.next().map_or(&[][..], Vec::as_slice);
        let answer: u32 = match stream.call {
            b't' => track(input),
            b's' => calls::step(&mut image, input, &mut room[..report::BYTES]).into(),
            b'b' => {
                let room = &mut room[..report::BYTES];
                calls::step_books(&mut image, input, room, &mut books).into()
            }
            b'p' => reported(calls::pass(&mut image, input, &mut room), &mut written),
            b'o' => reported(one_by_one(&mut image, input, &mut room), &mut written),
            b'n' => number_on(calls::modules_on(&image)),
            b'm' => calls::summary(&books, &mut shares).into(),
            b'e' => counted(calls::beacon_extended(&image, &mut room), &mut written),
            b'k' => counted(calls::key(input, &mut room), &mut written),
            _ => counted(calls::read(input, &mut room), &mut written),
        };
        sum = sum.wrapping_add(answer.into());
    }
    let nanoseconds = begin.elapsed().as_nanos();
    let bytes = room[..written].iter().map(|byte| u64::from(*byte));
    let shares = shares.iter().map(|share| u64::from(*share));
    for number in bytes.chain(books).chain(shares) {
        sum = sum.wrapping_mul(31).wrapping_add(number);
    }
    (nanoseconds, sum)
}

fn counted((answer, count): (u8, usize), written: &mut usize) -> u32 {
    *written = count;
    answer.into()
}

fn reported((answer, reports): (u8, usize), written: &mut usize) -> u32 {
    counted((answer, report::BYTES * reports), written)
}

/// How many modules are on, and the answer, as one number: as `drive.c`.
fn number_on((answer, count): (u8, usize)) -> u32 {
    u32::from(answer) + 31 * count as u32
}

/// What the tracker makes of a move, as one number: as `drive.c`.
fn track(input: &[u8]) -> u32 {
    let number = |place: usize| {
        let bytes = input[4 * place..4 * place + 4].try_into();
        u32::from_le_bytes(bytes.expect("four bytes"))
    };
    let reading = |place| Reading {
        millivolts: number(place),
        milliamperes: number(place + 1),
    };
    let (mut set_point, mut step) = (number(4), number(5) as i32);
    let answer = calls::track(reading(0), reading(2), &mut set_point, &mut step);
    let sum = u32::from(answer).wrapping_add(set_point.wrapping_mul(31));
    sum.wrapping_add(step as u32)
}

/// A pass by single calls: as `drive.c`.
fn one_by_one(image: &mut [u8], mut frames: &[u8], mut room: &mut [u8]) -> (u8, usize) {
    let mut reported = 0;
    while !frames.is_empty() {
        let (frame, rest) = frame::cut(frames);
        match calls::step(image, frame, room) {
            refusal @ 1..=7 => return (refusal, reported),
            _ => reported += 1,
        }
        frames = rest;
        room = &mut room[report::BYTES..];
    }
    (0, reported)
}

#[cfg(test)]
mod tests {
    use super::*;

    /// Twice round, one pass after the other: what they say they are.
    #[test]
    fn each_pass_is_a_hundred_frames_that_are_done() {
        let mut board = board(Mode::Safe);
        for i in (0..PASSES).chain(0..PASSES) {
            let passed = model::pass::pass(&mut board, &pass(i), 100 * report::BYTES);
            assert_eq!((passed.answer, passed.reports.len()), (0, 100), "{i}");
            assert!(
                passed.reports.iter().all(|report| report.answer == 0),
                "{i}"
            );
            assert_eq!(board.mode, Mode::Safe, "{i}");
        }
    }

    /// Where the step keeps its sign and where it turns, and where a move stops at an
    /// end: what the moves say they are.
    #[test]
    fn the_moves_keep_turn_and_stop() {
        let next = |(numbers, set_point, step): &Move| {
            let [volts_before, amps_before, volts_after, amps_after] = *numbers;
            let reading = |millivolts, milliamperes| Reading {
                millivolts,
                milliamperes,
            };
            let before = reading(volts_before, amps_before);
            let after = reading(volts_after, amps_after);
            model::track::track(before, after, *set_point, *step)
        };
        let wanted = [
            (12_000, 250),
            (12_000, -250),
            (11_750, -250),
            (12_000, 250),
            (9_250, 250),
            (20_000, -250),
            (0, 250),
            (0, 250),
        ];
        assert_eq!(MOVES.each_ref().map(next), wanted.map(Ok));
    }

    /// What each module was on of its time, in thousandths: what the books say they are.
    #[test]
    fn the_books_are_mixed() {
        let wanted = [1_000, 0, 0, 333, 142, 999, 0, 333];
        assert_eq!(model::books::shares(&MIXED), Ok(wanted));
    }

    /// A refusal, too, is the same by single calls as by one, and so are the room
    /// and the image.
    #[test]
    fn single_calls_come_to_the_same() {
        let refused = [0x04, 2, 0, 1, 3, 1];
        for tail in [&[][..], &[TICK], &[GREETING], &[0x08], &refused] {
            let frames = [&pass(0), tail].concat();
            let start = image::save(&board(Mode::Safe));
            let (mut one, mut each) = ((start, [0; 2_048]), (start, [0; 2_048]));
            let by_one = calls::pass(&mut one.0, &frames, &mut one.1);
            let by_each = one_by_one(&mut each.0, &frames, &mut each.1);
            assert_eq!((by_one, one), (by_each, each), "{tail:02X?}");
        }
    }
}
