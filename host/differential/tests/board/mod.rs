//! What a case of `tests/vectors/calls` starts from, on a side.

use cases::Board;
use differential::sides::Calls;
use ems::IMAGE_BYTES;

/// What leads a side to the image that a case starts from.
pub fn board_of(side: Calls) -> Board {
    Board {
        image_bytes: IMAGE_BYTES,
        fresh: side.fresh,
        step: side.step,
    }
}
