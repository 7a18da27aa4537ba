//! What stands under each command's help: what else to know, and examples.

pub const MAIN: &str = "\
Every answer is the proved library's: of frames and flights, this tool knows names and
layouts, and no rule.

A flight is a pass script (*.pass, see docs/PASS-SCRIPTS.md) or a stream of frames
as bytes (any other file, and `-` for standard input); `--as` says so of any file.
It begins at the fresh start.

Example:
  ems log --explain examples/dawn.pass

Exit status: 0 done; 1 wrong usage, or a file that can't be read or written, or is no
image or curve; 2 a frame, a text, units or a call were refused; `compare` and `track`
have 3 and 4 too, and `books` has 4.";

pub const LOG: &str = "\
Ends at the first frame that is refused with 4 to 7, with status 2 and the reason on
standard error. After 6 and 7 the next frame is known, and the board flies on: so does
`--explain --keep-going`, and the status is 2 still.

Examples:
  ems log examples/dawn.pass
  ems log --explain examples/shorted.pass
  ems log --hex examples/dawn.pass
  printf '\\003\\001\\001\\000' | ems log -";

pub const FRAMES: &str = "\
These are the bytes, frames end to end, that one call of ems_pass takes: `ems uplink`
shows what comes of them.

Example:
  ems frames examples/dawn.pass -o dawn.bin";

pub const UPLINK: &str = "\
Every frame that gets a report, in the words of `log --explain`; how many reports come
back; and where and why the pass stops: at its end, where there is no room for the next
report (2), or before a frame that is refused with 4 to 7. A report with 8, 9 or 10
stops nothing. The status is 2 if it stops before its end. Last comes how many modules
the board is left with on, and which.

The answer is that of one call of ems_pass, with the bytes that `ems frames` writes.
Frames and seconds are counted from the pass's begin. What was done stands: with -o the
next pass can begin there. The flight of --after is a script or bytes by its name.

Examples:
  ems uplink examples/morning.pass --after examples/dawn.pass
  ems uplink examples/morning.pass --after examples/dawn.pass --room 64 -o saved.bin
  ems uplink next.pass --image saved.bin";

pub const SHOW: &str = "\
What is printed is a pass script that `ems frames` turns into the same bytes. Where
the board would stop reading, a comment says so; what follows is a guess. Of a pass
script it prints what the script sends.

Examples:
  ems show dawn.bin
  printf '\\004\\001\\000\\021\\004\\001' | ems show -";

pub const PLOT: &str = "\
In a browser, every mark and bar says what it is under the pointer.

Examples:
  ems plot examples/orbit.pass -o flight.svg --title 'A day of fifteen orbits'
  ems plot examples/orbit.pass -o evening.svg --from 18:00:00 --to 20h";

pub const BOOKS: &str = "\
The board keeps the books: after each tick that is done it adds a second to what it then
finds of each module, on, off or failed. They begin with zeros where the flight begins:
what comes before it, by --image or --after, is not in them. The share on is of the
three together, in tenths of a percent, rounded down. All of this is from the calls
ems_step_books and ems_summary; this tool adds up each module's three, and compares them
with the ticks that were done.

Where a frame is refused, the books are of the flight up to there. In what comes before
none may be; the flight of --after is a script or bytes by its name.

Exit status: 0 every module's three add up to the ticks done; 4 they don't (never seen:
it is proved); 2 a frame was refused.

Examples:
  ems books examples/orbit.pass
  ems books examples/orbit.pass -o books.svg --title 'A day of fifteen orbits'
  ems books examples/morning.pass --after examples/dawn.pass --keep-going";

pub const BEACON: &str = "\
The text that the last tick made due; if none is due then, the board is left alone
until one is, and standard error says for how long.

The extended beacon is the complete one with the greeting behind it. A greeting is kept
after its last repeat, so that --extended still has the text; with none kept, the status
is 2.

Examples:
  ems beacon examples/dawn.pass
  ems beacon --all examples/school.pass
  ems key \"$(ems beacon examples/dawn.pass)\" -o beacon.wav";

pub const KEY: &str = "\
A text has up to 64 characters: A to Z, 0 to 9, . , ? / and single spaces between words.

Examples:
  ems key \"EMS R 7000\" -o beacon.wav --wpm 18 --tone 700
  ems key --units \"CQ DE EMS/S, HW CPY? 73.\"";

pub const READ: &str = "\
Blanks and line ends between units are skipped.

Examples:
  ems read units.txt
  ems key --units \"EMS R 7000\" | ems read -";

pub const ROOM: &str = "\
A row for each number of characters, in the order given. It is enough for every text of
so many, and for shorter ones; so many zeros need just that. ems_key writes a byte a
unit, and in a buffer of so many bytes it never answers 14. In C the same number is
EMS_UNITS_FOR(n). A given text mostly needs fewer: `ems key --units` shows them.

The seconds are rounded up, and are those of the units alone: the sound that `ems key`
makes has a little silence before and after.

Examples:
  ems room
  ems room 20 33 --wpm 12";

pub const COMPARE: &str = "\
The promise: two craft are sent the same frames, but for battery readings, which are
in range and never lower on B. Then, after every frame, B's mode is as good as A's,
each module requested on A is requested on B, and each that never saw a short and is
on at A is on at B. The core four (MCS, COMM1, COMM2 and I2C) are the same on both,
shorted or not: requested, on and failed.

It ends where a frame is refused; with --keep-going, where it is refused with 4 or 5.

Exit status: 0 premises and conclusions hold; 3 the premises don't; 4 they do and a
conclusion doesn't (never seen: it is proved); 2 a frame was refused on both.

Example:
  ems compare examples/sister-craft-a.pass examples/sister-craft-b.pass";

pub const IMAGE: &str = "\
The layout is that of include/ems.h. Under it stands how many modules are on, as the
board's own call ems_modules_on counts them.

For bytes that are no state's image, every field that is wrong is named, with status 1.
The masks say once more which modules are requested, on and failed: where one disagrees
with a module, both are named, with what each of them says.

Examples:
  ems image --after examples/dawn.pass
  ems image saved.bin
  ems image --hex - < dump.txt";

pub const TRACK: &str = "\
The curve is a CSV file: the head line millivolts,milliamperes and rows of these in the
order of their voltage. The first is at 0 mV; at the last no current flows any more, and
past it none does. Between two rows the current is on a straight line. Currents may have
decimals, and the meter reads whole milliamperes. From # to the end of a line is a
comment.

The promise: where the readings rise strictly up to one peak and fall strictly past it,
the set point is always less than two steps from the peak once a move has come from one
side of it, or from it, to the other side, or to it. The peak may be at any set point.
The readings are looked at where the walk came by.

Every move is a call of ems_track. At the first one nothing has moved yet: both readings
are the start's.

Exit status: 0 premises and conclusion hold, or the walk has not come to the peak yet;
3 the premises don't hold; 4 they do and the conclusion doesn't (never seen: it is
proved); 2 a call was refused.

Examples:
  ems track examples/panel.csv --start 3000 --step 100 --calls 200 -o track.svg
  ems track examples/panel.csv --start 4900 --step -20
  ems track examples/shaded-panel.csv --start 3000 --table";
