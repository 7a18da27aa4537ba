//! What became of the greeting, in words.

use crate::board::Step;
use crate::image::{quoted, Image};
use crate::words::count;

/// What a frame did to the greeting; nothing where it only goes out once more, and not
/// for the last time.
pub fn change(step: &Step) -> Option<String> {
    let (before, after) = (&step.before, &step.after);
    if step.is_tick() {
        let last = before.repeats() > 0 && after.repeats() == 0;
        return last.then(|| "the greeting goes out for the last time".to_string());
    }
    let same = before.greeting() == after.greeting() && before.repeats() == after.repeats();
    (!same).then(|| taken(before, after))
}

/// What is said of a greeting that was kept or cleared.
fn taken(before: &Image, after: &Image) -> String {
    let of = |image: &Image| image.greeting().map(quoted);
    match (of(before), of(after)) {
        (was, Some(is)) => {
            let beacons = count(after.repeats(), "beacon");
            let replaced = was.filter(|was| *was != is);
            let replaced = replaced.map(|was| format!(", in place of {was}"));
            let replaced = replaced.unwrap_or_default();
            format!("the greeting {is} is kept, for {beacons}{replaced}")
        }
        (was, None) => {
            let was = was.map(|was| format!(" {was}")).unwrap_or_default();
            format!("the greeting{was} is cleared")
        }
    }
}
