//! What a picture needs of a flight: when what changed.

use crate::board::Step;
use crate::image::Image;
use crate::script::in_words;
use crate::tables::{shorts, TICK};
use ems::{answer, Beacon, Module, Report};

/// A value over time: each with the second from which on it stands.
pub struct Track<T>(Vec<(u64, T)>);

impl<T: Copy + PartialEq> Track<T> {
    fn new() -> Track<T> {
        Track(Vec::new())
    }

    /// Takes down the value at a second, which is not before the last.
    fn at(&mut self, second: u64, value: T) {
        if self.0.last().is_some_and(|&(when, _)| when == second) {
            self.0.pop();
        }
        if self.0.last().is_none_or(|&(_, last)| last != value) {
            self.0.push((second, value));
        }
    }

    /// Stretches of time with their value, up to an end.
    pub fn stretches(&self, end: u64) -> impl Iterator<Item = Stretch<T>> + '_ {
        let ends = self.0.iter().skip(1).map(|&(second, _)| second);
        let stretches = self.0.iter().zip(ends.chain([end]));
        stretches.map(|(&(from, value), to)| Stretch { from, to, value })
    }
}

/// A value, and the seconds from and to which it stands.
#[derive(Clone, Copy)]
pub struct Stretch<T> {
    pub from: u64,
    pub to: u64,
    pub value: T,
}

/// A frame with a number of its sender's, or one that was refused.
pub struct Event {
    pub second: u64,
    /// The frame's number.
    pub n: u64,
    /// The frame as a line of a script.
    pub sent: String,
    /// The answer, or the refusal.
    pub answer: u8,
}

impl Event {
    pub fn is_done(&self) -> bool {
        self.answer == answer::DONE
    }
}

/// The state that is drawn, over time.
pub struct Record {
    pub frames: u64,
    pub seconds: u64,
    pub mode: Track<u8>,
    /// 0 before the first reading.
    pub tension: Track<u16>,
    pub ascend: Track<u16>,
    pub descend: Track<u16>,
    pub requested: Track<u8>,
    pub on: Track<u8>,
    pub failed: Track<u8>,
    /// Shorts seen in each second, at the second's begin.
    pub shorts: Track<u8>,
    /// The tries that a module has left, on or off, where it has spent some.
    pub tries: [Track<Option<u16>>; Module::ALL.len()],
    /// The second at which a module's end comes, while one is running.
    pub ends: [Track<Option<u64>>; Module::ALL.len()],
    /// Orders, thresholds, and what was refused.
    pub events: Vec<Event>,
    /// When a beacon was due, and which.
    pub beacons: Vec<(u64, Beacon)>,
}

impl Record {
    /// A flight that begins with this image.
    pub fn new(fresh: &Image) -> Record {
        let mut record = Record {
            frames: 0,
            seconds: 0,
            mode: Track::new(),
            tension: Track::new(),
            ascend: Track::new(),
            descend: Track::new(),
            requested: Track::new(),
            on: Track::new(),
            failed: Track::new(),
            shorts: Track::new(),
            tries: Module::ALL.map(|_| Track::new()),
            ends: Module::ALL.map(|_| Track::new()),
            events: Vec::new(),
            beacons: Vec::new(),
        };
        record.state(fresh);
        record
    }

    /// Takes down a frame.
    pub fn add(&mut self, frame: &[u8], step: &Step) {
        self.frames = step.n;
        match step.outcome {
            Ok(report) => self.passed(frame, step, &report),
            Err(refusal) => self.event(frame, step, refusal),
        }
    }

    /// Takes down a frame that has a report.
    fn passed(&mut self, frame: &[u8], step: &Step, report: &Report) {
        if report.kind == TICK {
            self.shorts.at(self.seconds, shorts(frame));
            self.seconds = step.seconds;
            self.shorts.at(self.seconds, 0);
        }
        self.state(&step.after);
        if report.origin != 0 {
            self.event(frame, step, report.answer);
        }
        if let Some(beacon) = Beacon::of(report.beacon) {
            self.beacons.push((self.seconds, beacon));
        }
    }

    fn event(&mut self, frame: &[u8], step: &Step, answer: u8) {
        self.events.push(Event {
            second: self.seconds,
            n: step.n,
            sent: in_words(frame),
            answer,
        });
    }

    fn state(&mut self, image: &Image) {
        let now = self.seconds;
        self.mode.at(now, image.mode());
        self.tension.at(now, image.tension());
        self.ascend.at(now, image.ascend());
        self.descend.at(now, image.descend());
        self.requested.at(now, image.requests());
        self.on.at(now, image.on());
        self.failed.at(now, image.failed());
        for (module, ends) in Module::ALL.into_iter().zip(&mut self.ends) {
            let left = u64::from(image.end(module));
            ends.at(now, (left > 0).then_some(now + left));
        }
        for (module, tries) in Module::ALL.into_iter().zip(&mut self.tries) {
            tries.at(now, image.power(module).tries_left());
        }
    }
}
