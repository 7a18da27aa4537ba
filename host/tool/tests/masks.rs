//! The masks of an image beside its modules, and how many modules are on.

mod common;

use ::ems::{Craft, Module};
use common::images::{
    shown, with_module, with_module_and_masks, Image, FRESH, MASKS, NO_STATE, REQUESTED,
};
use common::{run, scratch};

/// A number for each module, requested and not, on, off and failed; and what it says.
const MIXED: [(u16, &str); 8] = [
    (32_768 + 240, "on, 5 tries left, requested"),
    (32_768 + 245, "off, 5 tries left, requested"),
    (32_768 + 846, "failed, 600 seconds left, requested"),
    (240, "on, 5 tries left, not requested"),
    (
        32_768 + 192,
        "on, 4 tries left, 12 of 60 seconds, requested",
    ),
    (245, "off, 5 tries left, not requested"),
    (246, "failed, 0 seconds left, not requested"),
    (241, "off, 1 try left, not requested"),
];

/// The fresh start with these.
fn mixed() -> Image {
    let modules = Module::ALL.into_iter().zip(MIXED);
    modules.fold(FRESH, |image, (module, (number, _))| {
        with_module_and_masks(image, module, number)
    })
}

/// A bit that turned in a mask: which mask, which module, and what each says.
#[test]
fn every_bit_of_a_mask_is_held_to_its_module() {
    let fresh = Module::ALL.map(|module| match FRESH[REQUESTED] & module.bit() {
        0 => "off, 5 tries left, not requested",
        _ => "off, 5 tries left, requested",
    });
    for (image, modules) in [(FRESH, fresh), (mixed(), MIXED.map(|(_, said)| said))] {
        for (at, name) in MASKS {
            for (module, said) in Module::ALL.into_iter().zip(modules) {
                let mut turned = image;
                turned[at] ^= module.bit();
                let with = match turned[at] & module.bit() {
                    0 => "without",
                    _ => "with",
                };
                let ran = shown(&turned).status(1);
                assert_eq!(
                    ran.err,
                    format!(
                        "{NO_STATE} {name} is {:02X}, {with} {module}, which is {said}\n",
                        turned[at]
                    )
                );
                // The fields are shown, and nothing is counted.
                assert_eq!(ran.text().lines().count(), 32, "{}", ran.text());
                ran.prints(&format!("{at}  {:02X}           {name:14} ", turned[at]))
                    .prints(&format!(" {module:14} {said}\n"));
            }
        }
    }
}

/// A module that changed, while the masks say what it was: every mask that is wrong now.
#[test]
fn a_module_that_changed_alone_is_told_beside_the_masks() {
    let told = |image: Image, module: Module, number: u16, why: &[&str]| {
        let wanted: Vec<String> = why.iter().map(|why| format!("{NO_STATE} {why}")).collect();
        let changed = with_module(image, module, number);
        let ran = shown(&changed).status(1);
        assert_eq!(ran.err.lines().collect::<Vec<&str>>(), wanted);
        assert_eq!(Craft::from_image(&changed), None);
    };
    let (payload, mcs) = (Module::Payload, Module::Mcs);
    told(
        FRESH,
        payload,
        240,
        &["on mask is 00, without PAYLOAD, which is on, 5 tries left, not requested"],
    );
    told(
        FRESH,
        payload,
        846,
        &["failed mask is 00, without PAYLOAD, which is failed, 600 seconds left, not requested"],
    );
    told(
        FRESH,
        payload,
        32_768 + 245,
        &["requested mask is 27, without PAYLOAD, which is off, 5 tries left, requested"],
    );
    told(
        mixed(),
        mcs,
        32_768 + 245,
        &["on mask is 19, with MCS, which is off, 5 tries left, requested"],
    );
    told(
        mixed(),
        mcs,
        247,
        &[
            "requested mask is 17, with MCS, which is failed, 1 second left, not requested",
            "on mask is 19, with MCS, which is failed, 1 second left, not requested",
            "failed mask is 44, without MCS, which is failed, 1 second left, not requested",
        ],
    );
    // Tries and seconds are in no mask.
    shown(&with_module(FRESH, payload, 241))
        .status(0)
        .prints("63  F1 00        PAYLOAD        off, 1 try left, not requested\n");
}

/// A module and the masks that changed alike are a state again, with its count.
#[test]
fn a_module_that_changed_with_the_masks_is_shown_and_counted() {
    for module in Module::ALL {
        for (number, on, failed) in [(0, 1, 0), (240, 1, 0), (245, 0, 0), (846, 0, 1)] {
            for requested in [0, 32_768] {
                let image = with_module_and_masks(FRESH, module, requested + number);
                let [_, on_mask, failed_mask] = MASKS.map(|(at, _)| image[at]);
                assert_eq!(on_mask, on * module.bit());
                assert_eq!(failed_mask, failed * module.bit());
                let named = |has: u8| match has {
                    0 => "none",
                    _ => module.name(),
                };
                let plural = if on == 1 { "" } else { "s" };
                shown(&image)
                    .status(0)
                    .prints(&format!(
                        "53  {on_mask:02X}           on mask        {}\n",
                        named(on)
                    ))
                    .prints(&format!(
                        "54  {failed_mask:02X}           failed mask    {}\n",
                        named(failed)
                    ))
                    .prints(&format!("\n\nThe board has {on} module{plural} on.\n"));
            }
        }
    }
    shown(&mixed())
        .status(0)
        .prints("52  17           requested mask MCS, COMM1, COMM2 and PAYLOAD\n")
        .prints("53  19           on mask        MCS, ADCS and PAYLOAD\n")
        .prints("54  44           failed mask    COMM2 and SBAND1\n")
        .prints("\n\nThe board has 3 modules on.\n");
}

/// Under a flight's image stands what the call counts, wherever that changes while
/// modules start, short, fail, come back and go off.
#[test]
fn the_modules_that_are_on_are_those_that_the_call_counts() {
    let flight = run(&["frames", "examples/shorted.pass", "-o", "-"]);
    let flight = flight.status(0).out;
    let (mut craft, mut flown, mut counts) = (Craft::fresh(), 0, Vec::new());
    while let [kind, ..] = flight[flown..] {
        let length = match kind {
            0x02 => 3,
            0x04 => 6,
            _ => 2,
        };
        let report = craft.report_on(&flight[flown..flown + length]);
        flown += length;
        let on = craft.modules_on();
        assert_eq!(report.map(|report| report.on.count_ones()), Ok(on as u32));
        if counts.last() != Some(&on) {
            counts.push(on);
            let said = format!("\n\nThe board has {on} modules on.\n");
            let part = scratch("part.bin", &flight[..flown]);
            run(&["image", "--after", &part]).status(0).prints(&said);
            shown(craft.image()).status(0).prints(&said);
        }
    }
    assert_eq!(counts, [0, 4, 6, 5, 6, 5, 6, 5]);
}
