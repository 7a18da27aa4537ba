//! Help and usage.

mod common;

use common::{run, COMMANDS};

#[test]
fn every_command_has_help_with_an_example() {
    let main = run(&["--help"]).status(0);
    assert!(main.text().contains("Example:\n  ems log"));
    for command in COMMANDS {
        assert!(
            main.text().contains(&format!("\n  {command} ")),
            "{command}"
        );
        let help = run(&[command, "--help"]).status(0);
        let example = format!("  ems {command} ");
        assert!(
            help.text().contains("Example") && help.text().contains(&example),
            "{command}"
        );
    }
}

#[test]
fn help_says_how_a_greeting_is_read() {
    run(&["beacon", "--help"])
        .status(0)
        .prints("--extended")
        .prints("if a greeting is kept")
        .prints("with none kept, the status\nis 2.\n")
        .prints("\n  ems beacon --all examples/school.pass\n");
}

#[test]
fn help_says_what_is_shown_of_an_image_and_counted() {
    run(&["image", "--help"])
        .status(0)
        .prints("how many modules are on, as the\nboard's own call ems_modules_on counts them.\n")
        .prints("which modules are requested, on and failed: where one disagrees\nwith a module,")
        .prints("both are named, with what each of them says.\n")
        .prints("\n  ems image --after examples/dawn.pass\n");
    run(&["uplink", "--help"])
        .status(0)
        .prints("Last comes how many modules\nthe board is left with on, and which.\n");
}

#[test]
fn help_says_what_the_books_are_of() {
    run(&["books", "--help"])
        .status(0)
        .prints("They begin with zeros where the flight begins:\n")
        .prints("what comes before it, by --image or --after, is not in them.")
        .prints("in tenths of a percent, rounded down.")
        .prints("ems_step_books and ems_summary;")
        .prints("4 they don't (never seen:\nit is proved)")
        .prints("\n  ems books examples/orbit.pass\n");
}

#[test]
fn help_says_what_the_room_is_enough_for() {
    run(&["room", "--help"])
        .status(0)
        .prints("[CHARACTERS]...")
        .prints("1 to 64")
        .prints("Words a minute, 1 to 100")
        .prints("[default: 18]")
        .prints("enough for every text of\nso many, and for shorter ones;")
        .prints("so many zeros need just that.")
        .prints("in a buffer of so many bytes it never answers 14.")
        .prints("\nEMS_UNITS_FOR(n).")
        .prints("\n  ems room 20 33 --wpm 12\n");
}

#[test]
fn help_says_what_a_curve_is_and_what_is_promised() {
    run(&["track", "--help"])
        .status(0)
        .prints("the head line millivolts,milliamperes and rows")
        .prints("at the last no current flows any more")
        .prints("\nthe set point is always less than two steps from the peak once")
        .prints("The peak may be at any set point.\n")
        .prints("3 the premises don't hold")
        .prints(
            "\n  ems track examples/panel.csv --start 3000 --step 100 --calls 200 -o track.svg\n",
        );
}

#[test]
fn help_says_what_is_promised_of_two_craft() {
    run(&["compare", "--help"])
        .status(0)
        .prints("in range and never lower on B. Then, after every frame, B's mode is as good as A's,\n")
        .prints("each module requested on A is requested on B, and each that never saw a short and is\non at A")
        .prints("The core four (MCS, COMM1, COMM2 and I2C) are the same on both,\nshorted or not")
        .prints("\n  ems compare examples/sister-craft-a.pass examples/sister-craft-b.pass\n");
}

#[test]
fn wrong_usage_is_told_with_status_1() {
    for args in [
        &[][..],
        &["fly"],
        &["log"],
        &["log", "-", "--as", "music"],
        &["frames", "x.pass"],
    ] {
        let ran = run(args).status(1);
        assert!(!ran.err.is_empty() && ran.out.is_empty(), "{args:?}");
    }
    let ran = run(&["lag", "-"]).status(1);
    assert!(
        ran.err.starts_with("ems: The subcommand 'lag' "),
        "{}",
        ran.err
    );
}
