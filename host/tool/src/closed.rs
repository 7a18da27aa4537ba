//! Which of the standard streams nobody had opened. Rust's runtime puts
//! `/dev/null` in their place before `main`, so they are looked at before that.

use std::io;
use std::os::fd::AsFd;
use std::sync::atomic::{AtomicBool, Ordering};

static INPUT: AtomicBool = AtomicBool::new(false);
static OUTPUT: AtomicBool = AtomicBool::new(false);

/// A descriptor can be copied if and only if it is open.
#[ctor::ctor]
fn look() {
    let closed = |stream: &dyn AsFd| stream.as_fd().try_clone_to_owned().is_err();
    INPUT.store(closed(&io::stdin()), Ordering::Relaxed);
    OUTPUT.store(closed(&io::stdout()), Ordering::Relaxed);
}

/// Whether the program was started without a standard input.
pub fn input() -> bool {
    INPUT.load(Ordering::Relaxed)
}

/// Whether the program was started without a standard output.
pub fn output() -> bool {
    OUTPUT.load(Ordering::Relaxed)
}
