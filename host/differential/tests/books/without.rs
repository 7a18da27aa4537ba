//! What a step without books leaves, for those with books that go wrong.

use differential::bookkeeping::raised;
use model::calls;
use model::report::{self, Report};

/// The call without books.
pub struct Without<'a> {
    /// Its frame.
    pub frame: &'a [u8],
    /// Its answer.
    pub answer: u8,
    /// The image that it leaves.
    pub image: Vec<u8>,
    /// The room that it leaves.
    pub room: Vec<u8>,
    /// The numbers of the books that it would raise.
    pub raised: Vec<usize>,
}

impl<'a> Without<'a> {
    /// Makes it, on copies of image and room.
    pub fn of(image: &[u8], frame: &'a [u8], room: &[u8]) -> Without<'a> {
        let (mut image, mut room) = (image.to_vec(), room.to_vec());
        let answer = calls::step(&mut image, frame, &mut room);
        let report = room.first_chunk::<{ report::BYTES }>();
        let report = report.filter(|_| matches!(answer, 0 | 8..=10));
        let raised = report.map_or(vec![], |report| raised(&Report::from_bytes(report)));
        Without {
            frame,
            answer,
            image,
            room,
            raised,
        }
    }

    /// Leaves it there.
    pub fn leave(&self, image: &mut [u8], room: &mut [u8]) -> u8 {
        image.copy_from_slice(&self.image);
        room.copy_from_slice(&self.room);
        self.answer
    }
}

/// Raises numbers, as far as they are there.
pub fn raise(books: &mut [u64], places: &[usize]) {
    for place in places {
        if let Some(number) = books.get_mut(*place) {
            *number = number.wrapping_add(1);
        }
    }
}
