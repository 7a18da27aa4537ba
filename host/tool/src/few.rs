//! The first few of what may be many: they are kept, the rest are counted.

/// So many are kept.
const KEPT: usize = 10;

/// The first ten, and how many there are in all.
#[derive(Debug)]
pub struct Few<T> {
    kept: Vec<T>,
    count: u64,
}

impl<T> Few<T> {
    pub fn new() -> Few<T> {
        Few {
            kept: Vec::new(),
            count: 0,
        }
    }

    /// One more, which is only made if it is kept.
    pub fn add(&mut self, one: impl FnOnce() -> T) {
        self.count += 1;
        if self.kept.len() < KEPT {
            self.kept.push(one());
        }
    }

    pub fn is_empty(&self) -> bool {
        self.count == 0
    }

    /// Those that are kept.
    pub fn kept(&self) -> &[T] {
        &self.kept
    }

    /// How many are not.
    pub fn more(&self) -> u64 {
        self.count - self.kept.len() as u64
    }
}
