//! `ems image`: what a board's state is, in words.

mod common;

use ::ems::Module;
use common::images::{
    safe_with, shown, with, with_module_and_masks, FRESH, MODULES, NO_STATE, REQUESTED,
};
use common::{bash, fed, place, run, scratch};

/// Where the ends begin, and whose they are.
const ENDS: [(usize, &str); 4] = [
    (36, "ADCS"),
    (40, "PAYLOAD"),
    (44, "SBAND1"),
    (48, "SBAND2"),
];

/// Asserts a line of what is shown of an image.
fn says(image: &[u8], line: &str) {
    shown(image).status(0).prints(&format!("{line}\n"));
}

#[test]
fn every_field_is_shown_with_its_bytes() {
    let wanted = "\
at  bytes        field          says
 0  06           version        6
 1  00 00 00     mode           DEPLOY_WAIT, 0 seconds waited for the antennas
 4  00           control        0 of 30 seconds
 5  00 00        beacon         0 of 300 seconds
 7  00           antennas       folded
 8  00 00        tension        no reading yet
10  E8 1C        ascend         7,400 mV
12  58 1B        descend        7,000 mV
14  00 00        ground         last number 0
16  00 00        payload        last number 0
18  00           repeats        0 left
19  00           length         0 characters
20  00 00 00 00  message        none
24  00 00 00 00
28  00 00 00 00
32  00 00 00 00
36  00 00 00 00  ADCS's end     none
40  00 00 00 00  PAYLOAD's end  none
44  00 00 00 00  SBAND1's end   none
48  00 00 00 00  SBAND2's end   none
52  27           requested mask MCS, COMM1, COMM2 and I2C
53  00           on mask        none
54  00           failed mask    none
55  F5 80        MCS            off, 5 tries left, requested
57  F5 80        COMM1          off, 5 tries left, requested
59  F5 80        COMM2          off, 5 tries left, requested
61  F5 00        ADCS           off, 5 tries left, not requested
63  F5 00        PAYLOAD        off, 5 tries left, not requested
65  F5 80        I2C            off, 5 tries left, requested
67  F5 00        SBAND1         off, 5 tries left, not requested
69  F5 00        SBAND2         off, 5 tries left, not requested

The board has 0 modules on.
";
    assert_eq!(shown(&FRESH).status(0).text(), wanted);
    let file = scratch("saved.bin", FRESH);
    assert_eq!(run(&["image", &file]).status(0).text(), wanted);
}

#[test]
fn every_number_is_put_in_words() {
    let mode = |number: u32, said: &str| {
        let bytes = number.to_le_bytes();
        let line = format!(
            " 1  {:02X} {:02X} {:02X}     mode           {said}",
            bytes[0], bytes[1], bytes[2]
        );
        says(&with(1, &bytes[..3]), &line);
    };
    mode(1, "DEPLOY_WAIT, 1 second waited for the antennas");
    mode(
        86_399,
        "DEPLOY_WAIT, 86,399 seconds waited for the antennas",
    );
    mode(86_400, "DEPLOY_WAIT, settling, 1 second left");
    mode(87_299, "DEPLOY_WAIT, settling, 900 seconds left");
    mode(87_300, "RECOVERY");
    mode(87_301, "SAFE");
    let module = |number: u16, said: &str| {
        let [low, high] = number.to_le_bytes();
        let line = format!("69  {low:02X} {high:02X}        SBAND2         {said}");
        says(&with_module_and_masks(FRESH, Module::Sband2, number), &line);
    };
    for (number, power) in [
        (0, "on, 1 try left, 0 of 60 seconds"),
        (1, "on, 1 try left, 1 of 60 seconds"),
        (59, "on, 1 try left, 59 of 60 seconds"),
        (60, "on, 2 tries left, 0 of 60 seconds"),
        (119, "on, 2 tries left, 59 of 60 seconds"),
        (120, "on, 3 tries left, 0 of 60 seconds"),
        (179, "on, 3 tries left, 59 of 60 seconds"),
        (180, "on, 4 tries left, 0 of 60 seconds"),
        (239, "on, 4 tries left, 59 of 60 seconds"),
        (240, "on, 5 tries left"),
        (241, "off, 1 try left"),
        (245, "off, 5 tries left"),
        (246, "failed, 0 seconds left"),
        (247, "failed, 1 second left"),
        (846, "failed, 600 seconds left"),
    ] {
        module(number, &format!("{power}, not requested"));
        module(32_768 + number, &format!("{power}, requested"));
    }
    for (at, module) in ENDS {
        let name = format!("{module}'s end");
        let end = |bytes: [u8; 4], hex: &str, said: &str| {
            says(&with(at, &bytes), &format!("{at}  {hex}  {name:14} {said}"));
        };
        end([1, 0, 0, 0], "01 00 00 00", "in 1 second");
        end([0xB0, 4, 0, 0], "B0 04 00 00", "in 1,200 seconds");
        end([0x80, 0x51, 1, 0], "80 51 01 00", "in 86,400 seconds");
    }
    says(
        &safe_with(4, &[29]),
        " 4  1D           control        29 of 30 seconds",
    );
    says(
        &safe_with(5, &[0x2B, 1]),
        " 5  2B 01        beacon         299 of 300 seconds",
    );
    says(&with(7, &[1]), " 7  01           antennas       deployed");
    says(
        &with(8, &[0x28, 0x23]),
        " 8  28 23        tension        9,000 mV",
    );
    says(
        &with(10, &[0x88, 0x13, 0x88, 0x13]),
        "12  88 13        descend        5,000 mV",
    );
    says(
        &with(14, &[0xFF, 0xFF]),
        "14  FF FF        ground         last number 65535",
    );
    says(
        &with(16, &[3, 1]),
        "16  03 01        payload        last number 259",
    );
}

#[test]
fn bytes_that_are_no_image_are_told_why() {
    let wrong = |image: &[u8], why: &str| {
        let ran = shown(image).status(1);
        assert_eq!(ran.text().lines().count(), 32, "{}", ran.text());
        ran.says(&format!("{NO_STATE} {why}\n"));
    };
    wrong(&with(0, &[5]), "version is 5, not 6");
    wrong(&with(0, &[7]), "version is 7, not 6");
    wrong(
        &with(1, &[0x06, 0x55, 0x01]),
        "mode is 87,302, not 0 to 87,301",
    );
    wrong(&safe_with(4, &[30]), "control is 30, not 0 to 29");
    wrong(&safe_with(5, &[0x2C, 1]), "beacon is 300, not 0 to 299");
    wrong(&with(4, &[1]), "control is 1, not 0, as in DEPLOY_WAIT");
    wrong(&with(5, &[1]), "beacon is 1, not 0, as in DEPLOY_WAIT");
    wrong(&with(7, &[2]), "antennas is 2, not 0 or 1");
    wrong(
        &with(8, &[0x87, 0x13]),
        "tension is 4,999, not 0, or 5,000 to 9,000",
    );
    wrong(
        &with(8, &[0x29, 0x23]),
        "tension is 9,001, not 0, or 5,000 to 9,000",
    );
    wrong(
        &with(10, &[0x29, 0x23]),
        "ascend is 9,001, not 5,000 to 9,000",
    );
    wrong(
        &with(12, &[0x87, 0x13]),
        "descend is 4,999, not 5,000 to 9,000",
    );
    wrong(&with(12, &[0xE9, 0x1C]), "descend is 7,401, above ascend");
    for (at, module) in ENDS {
        wrong(
            &with(at, &[0x81, 0x51, 1, 0]),
            &format!("{module}'s end is 86,401, not 0 to 86,400"),
        );
        wrong(
            &with(at, &[0, 0, 0, 0x80]),
            &format!("{module}'s end is 2,147,483,648, not 0 to 86,400"),
        );
    }
    let module = "not 0 to 846, nor so much and 32,768";
    wrong(&with(55, &[0x4F, 0x03]), &format!("MCS is 847, {module}"));
    wrong(
        &with(55, &[0xFF, 0x7F]),
        &format!("MCS is 32,767, {module}"),
    );
    wrong(
        &with(69, &[0x4F, 0x83]),
        &format!("SBAND2 is 33,615, {module}"),
    );
    wrong(
        &with(69, &[0xFF, 0xFF]),
        &format!("SBAND2 is 65,535, {module}"),
    );
    shown(&with(7, &[2]))
        .status(1)
        .prints(" 7  02           antennas       2, which no state has\n");
    // All that is wrong is said.
    let ran = shown(&with(7, &[2, 1, 0])).status(1);
    assert_eq!(ran.err.lines().count(), 2, "{}", ran.err);
}

#[test]
fn other_lengths_are_no_image() {
    for length in [0, 1, 34, 50, 68, 70, 72] {
        let bytes = vec![6; length];
        let said = if length == 1 {
            "1 byte".to_string()
        } else {
            format!("{length} bytes")
        };
        shown(&bytes).status(1).says(&format!(
            "standard input has {said}, and an image of version 6 has 71\n"
        ));
    }
}

/// The layout before the masks, version 5: neither as it is, nor with the bytes made up.
#[test]
fn an_image_without_masks_is_no_image() {
    let mut earlier = FRESH.to_vec();
    earlier[0] = 5;
    earlier.drain(REQUESTED..MODULES);
    let ran = shown(&earlier).status(1);
    assert!(ran.out.is_empty());
    ran.says("ems: standard input has 68 bytes, and an image of version 6 has 71\n");
    let ran = shown(&[&earlier[..], &[0; 3]].concat()).status(1);
    ran.says_first(&format!("{NO_STATE} version is 5, not 6"));
}

#[test]
fn an_image_can_be_written_in_hex() {
    let hex: Vec<String> = FRESH.iter().map(|byte| format!("{byte:02x}")).collect();
    let plain = shown(&FRESH).status(0);
    for text in [
        hex.concat(),
        hex.join(" "),
        hex.join("\n") + "\n",
        hex.concat().to_uppercase(),
    ] {
        let ran = fed(&["image", "--hex", "-"], text.as_bytes()).status(0);
        assert_eq!(ran.text(), plain.text());
        // Who forgets the option is told.
        shown(text.as_bytes())
            .status(1)
            .says("it looks like hex: `--hex` reads it so");
    }
    let wrong = |text: &str, why: &str| {
        fed(&["image", "--hex", "-"], text.as_bytes())
            .status(1)
            .says(why);
    };
    wrong("04 0", "standard input: the last byte has one digit");
    wrong("04 0x", "standard input: `x` is no hexadecimal digit");
    wrong(
        "04 00",
        "standard input has 2 bytes, and an image of version 6 has 71",
    );
}

#[test]
fn a_flight_ends_with_an_image() {
    let fresh = scratch("none.pass", "");
    let ran = run(&["image", "--after", &fresh]).status(0);
    assert_eq!(ran.text(), shown(&FRESH).status(0).text());
    let flight = "antennas deployed\nbattery 7800\ntick 931\norder ground 16 PAYLOAD on\n\
                  order payload 3 PAYLOAD on for 20 min\ntick 20\ntick 3 shorts PAYLOAD\n";
    let file = scratch("flown.pass", flight);
    let ran = run(&["image", "--after", &file]).status(0);
    for line in [
        " 1  05 55 01     mode           SAFE\n",
        " 4  17           control        23 of 30 seconds\n",
        " 8  78 1E        tension        7,800 mV\n",
        "14  10 00        ground         last number 16\n",
        "16  03 00        payload        last number 3\n",
        "36  00 00 00 00  ADCS's end     none\n",
        "40  99 04 00 00  PAYLOAD's end  in 1,177 seconds\n",
        "52  37           requested mask MCS, COMM1, COMM2, PAYLOAD and I2C\n",
        "53  27           on mask        MCS, COMM1, COMM2 and I2C\n",
        "54  00           failed mask    none\n",
        "55  F0 80        MCS            on, 5 tries left, requested\n",
        "63  F2 80        PAYLOAD        off, 2 tries left, requested\n",
        "\n\nThe board has 4 modules on.\n",
    ] {
        assert!(ran.text().contains(line), "{} lacks {line}", ran.text());
    }
    // As bytes, it is the same flight.
    let bytes = place("flown.bin");
    run(&["frames", &file, "-o", &bytes]).status(0);
    assert_eq!(
        run(&["image", "--after", &bytes]).status(0).text(),
        ran.text()
    );
    let text = scratch("flown.txt", flight);
    assert_eq!(
        run(&["image", "--after", &text, "--as", "script"])
            .status(0)
            .text(),
        ran.text()
    );
}

/// The greeting as it is kept, as its repeats are used up, and cleared.
#[test]
fn a_greeting_is_shown_with_what_is_left_of_it() {
    let flight = "antennas deployed\nbattery 7800\ntick 931\ngreet ground 21 3 \"HELLO FROM 4B\"\n";
    let shown = |script: &str, repeats: &str, kept: &str| {
        let file = scratch("greeted.pass", format!("{flight}{script}"));
        run(&["image", "--after", &file])
            .status(0)
            .prints(&format!("{repeats}\n{kept}\n36  "));
    };
    let kept = "19  0D           length         13 characters\n\
                20  48 45 4C 4C  message        \"HELLO FROM 4B\"\n\
                24  4F 20 46 52\n28  4F 4D 20 34\n32  42 00 00 00";
    let none = "19  00           length         0 characters\n\
                20  00 00 00 00  message        none\n\
                24  00 00 00 00\n28  00 00 00 00\n32  00 00 00 00";
    shown("", "18  03           repeats        3 left", kept);
    shown("tick 60\n", "18  02           repeats        2 left", kept);
    // It stays after the last one, and in RECOVERY.
    let spent = "18  00           repeats        0 left";
    shown("tick 180\n", spent, kept);
    shown("tick 9999\n", spent, kept);
    shown(
        "tick 60\nbattery 6900\ntick 900\n",
        "18  02           repeats        2 left",
        kept,
    );
    for cleared in ["0 \"\"", "5 \"\"", "0 \"73\""] {
        shown(&format!("greet ground 22 {cleared}\n"), spent, none);
    }
}

#[test]
fn a_greeting_that_no_board_keeps_is_told_why() {
    let wrong = |length: u8, text: &[u8], why: &str| {
        let ran = shown(&with(18, &[&[3, length][..], text].concat())).status(1);
        ran.says(&format!("{NO_STATE} {why}\n"))
    };
    wrong(17, b"HELLO FROM 4B", "length is 17, not 0 to 16")
        .prints("19  11           length         17, which no state has\n");
    let alphabet = "it has 0 to 9, A to Z, the space, `,`, `.`, `/` and `?`";
    wrong(
        5,
        b"Hello",
        &format!(
            "message is \"Hello\", which can't be keyed: a character is outside the alphabet: \
             `e`, character 2; {alphabet}"
        ),
    )
    .prints("20  48 65 6C 6C  message        \"Hello\", which no state has\n24  6F 00 00 00\n");
    wrong(
        6,
        b"HELLO",
        &format!(
            "message is \"HELLO\u{2400}\", which can't be keyed: a character is outside the \
             alphabet: `\u{2400}`, character 6; {alphabet}"
        ),
    );
    wrong(
        4,
        b"A  B",
        "message is \"A  B\", which can't be keyed: a space is first, last or doubled: character 3",
    );
    wrong(
        4,
        b"HELLO",
        "message is \"HELL\", with a byte past its length that is not 0",
    );
    // With no text there may be repeats: no board gets there, and none refuses it.
    says(&with(18, &[3]), "18  03           repeats        3 left");
}

/// The seconds on run towards 60 while tries are spent, and stand still once none are.
#[test]
fn a_module_that_is_on_has_tries_and_seconds() {
    let flight = "antennas deployed\nbattery 7800\ntick 931\norder ground 1 SBAND1 on\ntick\n";
    let sband1 = |script: &str, said: &str| {
        let file = scratch("on.pass", format!("{flight}{script}"));
        let line = format!("SBAND1         {said}, requested\n");
        run(&["image", "--after", &file]).status(0).prints(&line);
    };
    sband1("", "on, 5 tries left");
    sband1("tick 100\n", "on, 5 tries left");
    let short = "tick 2 shorts SBAND1\ntick\n";
    sband1(short, "on, 3 tries left, 0 of 60 seconds");
    sband1(
        &format!("{short}tick 12\n"),
        "on, 3 tries left, 12 of 60 seconds",
    );
    sband1(
        &format!("{short}tick 59\n"),
        "on, 3 tries left, 59 of 60 seconds",
    );
    sband1(&format!("{short}tick 60\n"), "on, 5 tries left");
}

#[test]
fn a_flight_that_is_refused_ends_with_an_image_too() {
    let file = scratch("refused.pass", "battery 7800\nbattery 1\nbattery 7900\n");
    let image = |more: &[&str]| run(&[&["image", "--after", &file], more].concat()).status(2);
    image(&[])
        .prints("tension        7,800 mV\n")
        .says("`battery 1`, is refused: 6");
    image(&["--keep-going"])
        .prints("tension        7,900 mV\n")
        .says("`battery 1`, is refused: 6");
}

#[test]
fn an_image_or_a_flight_and_not_both() {
    for args in [
        "image",
        "image x --after y",
        "image --hex --after y",
        "image x --as bytes",
        "image x --keep-going",
    ] {
        let args: Vec<&str> = args.split(' ').collect();
        run(&args).status(1);
    }
    bash("$ems image examples/dawn.pass")
        .status(1)
        .says(" bytes, and an image of version 6 has 71");
}
