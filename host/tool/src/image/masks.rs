//! The masks beside the modules, which say the same once more.

use super::layout::{of_module, Field, FAILED, ON, REQUESTED};
use super::supply::{Power, Supply};
use super::Image;
use ems::Module;

/// Whether a module with such a supply is in a mask.
type Has = fn(Supply) -> bool;

/// The masks, and which modules each of them has.
const MASKS: [(Field, Has); 3] = [
    (REQUESTED, |supply| supply.requested),
    (ON, |supply| matches!(supply.power, Power::On { .. })),
    (FAILED, |supply| matches!(supply.power, Power::Failed(_))),
];

/// Where a mask and a module disagree: the mask, and what both say of the module.
pub fn disagreements(image: &Image) -> Vec<(Field, String)> {
    let mut found = Vec::new();
    for (field, has) in MASKS {
        let mask = image.mask(&field);
        for module in Module::in_mask(mask ^ gathered(image, has)) {
            let with = match mask & module.bit() {
                0 => "without",
                _ => "with",
            };
            let said = image.says(&of_module(module)).unwrap_or_default();
            found.push((field, format!("{with} {module}, which is {said}")));
        }
    }
    found
}

/// A mask by what the modules say.
fn gathered(image: &Image, has: Has) -> u8 {
    let own = |module: &Module| image.supply(*module).is_some_and(has);
    Module::ALL.into_iter().filter(own).map(Module::bit).sum()
}

#[cfg(test)]
mod tests {
    use super::*;
    use ems::Craft;

    /// The library and this table refuse the same images: with every number that a module
    /// may have, and others, while the masks stay and while they follow it; and with every
    /// mask.
    #[test]
    fn the_library_has_the_same_masks() {
        let fresh = Image::of(Craft::fresh().image());
        let powers = (0..1_000).chain(32_000..32_768);
        let numbers: Vec<u16> = powers.flat_map(|power| [power, 32_768 + power]).collect();
        let (mut alone, mut followed) = (0, 0);
        for module in Module::ALL {
            for &number in &numbers {
                let mut image = fresh;
                let at = of_module(module).at;
                image.0[at..at + 2].copy_from_slice(&number.to_le_bytes());
                alone += u32::from(is_taken(&image));
                for (field, has) in MASKS {
                    image.0[field.at] = gathered(&image, has);
                }
                followed += u32::from(is_taken(&image));
            }
        }
        // Off with 1 to 5 tries, as each is requested; all that it can be, requested or not.
        assert_eq!((alone, followed), (8 * 5, 8 * 2 * 847));
        for (field, _) in MASKS {
            let masks = (0..=u8::MAX).filter(|&mask| {
                let mut image = fresh;
                image.0[field.at] = mask;
                is_taken(&image)
            });
            assert_eq!(masks.collect::<Vec<u8>>(), [fresh.mask(&field)]);
        }
    }

    /// Whether the library takes an image, and this table says so too.
    fn is_taken(image: &Image) -> bool {
        let taken = Craft::from_image(&image.0).is_some();
        assert_eq!(image.faults().is_empty(), taken, "{image:?}");
        taken
    }
}
