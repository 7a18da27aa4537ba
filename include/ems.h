/* ems.h: the power-board supervisor, as C and C++ call it.
 *
 * The library is libflight.a, built by `host/library`. Every call is
 * proved to do exactly what its contract says, for all bytes and numbers it is
 * given. It allocates nothing, keeps nothing between calls, and always returns.
 *
 * What the proof takes from you, and cannot check:
 *   - every pointer is non-null, also where its length is 0;
 *   - every length is true: that many bytes may be read there (and written,
 *     where the pointer isn't const), or that many numbers, of `books` and
 *     `shares`, which are aligned as their type asks;
 *   - no two buffers of one call overlap, and `count` or `reported` lies outside
 *     of all; nor do `set_point` and `step`;
 *   - one caller at a time for any one buffer, and for any one such number.
 *
 * What every call that takes an image catches: one bit turned in a mask, or in a
 * module so that it is no longer requested, on or failed as it was. Masks and
 * modules then disagree, and the answer is EMS_BAD_STATE, before all others but
 * EMS_NOT_BOOKS.
 *
 * What no call catches: an image whose write was interrupted halfway and that
 * happens to be a state in range; a bit flip elsewhere that stays within the ranges
 * (in a serial, a tension, a module's tries or seconds); flips of a module and of its
 * masks that go together; and a flip in the books that takes no number above its
 * limit. A caller that keeps the image or the books over a reset guards them (two
 * copies and a checksum, say).
 */
#ifndef EMS_H
#define EMS_H

#include <stddef.h>
#include <stdint.h>

/* A length crosses as 64 bits, and `*count` and `*reported` come back as 64. With
 * a narrower size_t the call would read bits that nobody passed, and write past
 * what they point to. */
#if defined(__cplusplus) && __cplusplus >= 201103L
static_assert(sizeof(size_t) == 8, "ems.h: lengths cross as 64 bits");
#elif defined(__STDC_VERSION__) && __STDC_VERSION__ >= 201112L
_Static_assert(sizeof(size_t) == 8, "ems.h: lengths cross as 64 bits");
#else
typedef char ems_lengths_cross_as_64_bits[sizeof(size_t) == 8 ? 1 : -1];
#endif

#ifdef __cplusplus
extern "C" {
#endif

/* The bytes of an image: the whole state of the board, kept by the caller.
 * Numbers have their low byte first.
 *
 *   at   bytes  holds
 *    0     1    the layout's version, EMS_IMAGE_VERSION
 *    1     3    mode, and in DEPLOY_WAIT its phase with the seconds:
 *                 0 to 86,399       waiting, so many seconds waited
 *                 86,400 to 87,299  settling, 1 to 900 seconds left (86,399 more)
 *                 87,300            RECOVERY
 *                 87,301            SAFE
 *    4     1    control count, 0 to 29; 0 in DEPLOY_WAIT
 *    5     2    beacon count, 0 to 299; 0 in DEPLOY_WAIT
 *    7     1    antennas: 0 folded, 1 deployed
 *    8     2    tension in millivolts, 5,000 to 9,000; 0 before any reading
 *   10     2    ascend, 5,000 to 9,000
 *   12     2    descend, 5,000 to ascend
 *   14     2    the ground's last serial
 *   16     2    the payload's last serial
 *   18     1    the message's repeats: with how many more beacons it is sent, 0 to
 *               255
 *   19     1    the message's length, 0 to EMS_MESSAGE_BYTES; 0 where none is kept
 *   20    16    the message: so many bytes of a text that ems_key takes, then zeros
 *   36     4    ADCS's end: the seconds until its request goes off, 0 to 86,400;
 *               0 where none runs; then 4 bytes for each of the other ends:
 *               PAYLOAD's at 40, SBAND1's at 44, SBAND2's at 48
 *   52     1    the requested mask: bit i, 0 the lowest, is set if module i is
 *               requested
 *   53     1    the on mask: the same of the modules that are on
 *   54     1    the failed mask: the same of those that have failed
 *   55     2    module 0, then 2 bytes for each of the modules 1 to 7; when it
 *               is requested, 32,768 more (the top bit of its second byte):
 *                 0 to 239          on, 1 to 4 tries left and 0 to 59 seconds of
 *                                   the 60 that bring all tries back: the seconds,
 *                                   and 60 more for each try after the first
 *                 240               on, 5 tries left
 *                 241 to 245        off, 1 to 5 tries left (240 more)
 *                 246 to 846        failed, 0 to 600 seconds left (246 more)
 *
 * Each state in range has one image. Bytes that are none, those whose masks are not
 * the masks of their modules among them, are refused with EMS_BAD_STATE. */
#define EMS_IMAGE_BYTES 71
#define EMS_IMAGE_VERSION 6

/* The bytes of a report: 81, kind answered, origin, serial (2), answer, mode,
 * requested mask, on mask, failed mask, beacon. The masks are those of the image
 * after the frame. */
#define EMS_REPORT_BYTES 11

/* The bytes of a message's text, the zeros past its length included. */
#define EMS_MESSAGE_BYTES 16

/* The bytes of the basic and the complete beacon's text, and the most that an
 * extended one has: the complete text, a space, a message. */
#define EMS_BEACON_BASIC_BYTES 10
#define EMS_BEACON_COMPLETE_BYTES 16
#define EMS_BEACON_EXTENDED_BYTES 33

/* The longest text that is keyed. */
#define EMS_TEXT_BYTES 64

/* Room enough for the units of any text of n characters, n 1 to EMS_TEXT_BYTES; 0
 * for n 0. In so much room ems_key never answers EMS_NO_ROOM to such a text, and n
 * zeros take all of it. No character takes more than 22 units: the 19 of a `0` or a
 * `,` and the gap of 3 after it, which is not there after the last. A space has no
 * sign, and a gap of 7 where there would be one of 3: it takes 4. n is evaluated
 * twice. */
#define EMS_UNITS_FOR(n) (22 * (n) - ((n) == 0 ? 0 : 3))

/* Room enough for the units of any text that is keyed: 1405. */
#define EMS_UNITS_BYTES EMS_UNITS_FOR(EMS_TEXT_BYTES)

/* The greatest voltage of a panel's reading, and the greatest set point; the greatest
 * current of a reading; the longest step of the set point, either way, in millivolts. */
#define EMS_MOST_MILLIVOLTS 20000
#define EMS_MOST_MILLIAMPERES 5000
#define EMS_LONGEST_STEP 500

/* The modules of the board, and so the shares of a summary. */
#define EMS_MODULES 8

/* The numbers of the books: for each module its seconds on, off and failed. */
#define EMS_BOOKS_NUMBERS 24

/* The most seconds that a number of the books may have: 10 to the 15th, more than
 * 31 million years. */
#define EMS_MOST_SECONDS 1000000000000000U

/* What a call answers. The checks run in the order that the call's comment gives; the
 * first that applies is given. That order is the one of their numbers, but 15 and 21
 * go before 14, 18 before all others, and 17 before 7 and 14. */
enum ems_answer {
    EMS_DONE = 0,           /* done by the rules; there is a report */
    EMS_BAD_STATE = 1,      /* the image is not that of a state in range, or its
                               masks and modules disagree */
    EMS_SHORT_ROOM = 2,     /* fewer than EMS_REPORT_BYTES of reply room */
    EMS_NO_INPUT = 3,       /* no input bytes */
    EMS_UNKNOWN_KIND = 4,   /* kind not 01 to 07 */
    EMS_BAD_LENGTH = 5,     /* input length not the kind's total */
    EMS_BAD_FIELD = 6,      /* a field outside its range, descend above ascend, a
                               timed order for one of the core four, or a
                               greeting whose text ems_key refuses or whose bytes
                               past its length are not all 0 */
    EMS_NOT_PERMITTED = 7,  /* the payload asks for what only the ground may */
    EMS_REPEAT = 8,         /* serial a repeat; there is a report */
    EMS_STALE = 9,          /* serial stale; there is a report */
    EMS_NOT_NOW = 10,       /* "on", timed or not, for one of the mission four
                               outside SAFE; the serial is used up; there is a
                               report */
    EMS_TEXT_TOO_LONG = 11, /* text over EMS_TEXT_BYTES */
    EMS_NOT_KEYABLE = 12,   /* a byte that is neither a space nor of A to Z, 0 to
                               9 and . , ? / */
    EMS_BAD_SPACE = 13,     /* a space first, last or doubled */
    EMS_NO_ROOM = 14,       /* the room is shorter than the result */
    EMS_NOT_A_KEYING = 15,  /* the units are not exactly the keying of a text */
    EMS_OUT_OF_RANGE = 16,  /* a reading, the set point or the step is out of range */
    EMS_BOOKS_FULL = 17,    /* a number of the books is above EMS_MOST_SECONDS, or
                               this tick would take it above */
    EMS_NOT_BOOKS = 18,     /* not exactly EMS_BOOKS_NUMBERS numbers are lent */
    EMS_NO_MESSAGE = 21     /* no message is kept for the extended beacon */
};

/* The kinds of frames, the modes, and the beacon that a tick makes due, as they
 * stand in frames and reports. A timed order is 7 bytes: kind, origin, serial (2),
 * module of the mission four, minutes (2), 1 to 1,440; it is an "on" order that
 * takes itself back when its minutes are over. A greeting is 22 bytes: kind, origin,
 * serial (2), repeats 0 to 255, length 0 to EMS_MESSAGE_BYTES, the text with zeros
 * past its length; it is taken in every mode, and its message goes out with the next
 * so many beacons in SAFE. With repeats 0 or length 0 it clears the message.
 *
 * A core module (MCS 0, COMM1 1, COMM2 2, I2C 5) is requested from the fresh start on;
 * after that only orders for it move its request, and no change of mode does. A mission
 * module (ADCS 3, PAYLOAD 4, SBAND1 6, SBAND2 7) is requested by an order in SAFE; its
 * request goes off at an order, at its end, and as the mode falls to RECOVERY. */
enum ems_kind {
    EMS_KIND_TICK = 0x01,
    EMS_KIND_BATTERY = 0x02,
    EMS_KIND_ANTENNAS = 0x03,
    EMS_KIND_ORDER = 0x04,
    EMS_KIND_THRESHOLDS = 0x05,
    EMS_KIND_TIMED = 0x06,
    EMS_KIND_GREETING = 0x07,
    EMS_KIND_REPORT = 0x81
};
enum ems_mode { EMS_DEPLOY_WAIT = 0, EMS_RECOVERY = 1, EMS_SAFE = 2 };
enum ems_due {
    EMS_DUE_NONE = 0,
    EMS_DUE_BASIC = 1,
    EMS_DUE_COMPLETE = 2,
    EMS_DUE_EXTENDED = 3
};

/* Writes the image of the fresh start. EMS_DONE; or EMS_BAD_STATE with nothing
 * written, unless `image_len` is EMS_IMAGE_BYTES. */
uint8_t ems_fresh(uint8_t *image, size_t image_len);

/* Takes one frame. On EMS_DONE, EMS_REPEAT, EMS_STALE and EMS_NOT_NOW the first
 * EMS_REPORT_BYTES of the room are the report, the bytes past them stay, and
 * the image is the next state's. On every other answer (1 to 7) image and room
 * stay as they are. */
uint8_t ems_step(uint8_t *image, size_t image_len,
                 const uint8_t *frame, size_t frame_len,
                 uint8_t *room, size_t room_len);

/* Takes a whole pass: frames end to end, each as ems_step takes it, one after the
 * other. It stops before the first frame that gets no report, and answers why:
 *   EMS_BAD_STATE   the image, before all else, also where there are no bytes
 *   EMS_DONE        no bytes are left: every frame got its report
 *   EMS_SHORT_ROOM  fewer than EMS_REPORT_BYTES of room are left for the next
 *                   report, whatever the next frame is
 *   4 to 7          what ems_step refuses the next frame with; one that is cut
 *                   off at the end of the bytes with EMS_BAD_LENGTH
 * EMS_NO_INPUT is never given; EMS_REPEAT, EMS_STALE and EMS_NOT_NOW stand in
 * reports and stop nothing. How many frames got a report goes to `*reported`,
 * which is always written. Their reports stand end to end from the start of the
 * room and the bytes past them stay; the image is the state's after the last of
 * them, and stays where there is none. */
uint8_t ems_pass(uint8_t *image, size_t image_len,
                 const uint8_t *frames, size_t frames_len,
                 uint8_t *room, size_t room_len, size_t *reported);

/* Tells how many modules are on, 0 to 8: the ones in the on mask. EMS_DONE with their
 * number in `*count`; or EMS_BAD_STATE with `*count` 0. */
uint8_t ems_modules_on(const uint8_t *image, size_t image_len, size_t *count);

/* Takes one frame as ems_step does, and writes each module's seconds into the books:
 * as module m is found after a tick that is done, number 3m (on), 3m + 1 (off) or
 * 3m + 2 (failed) grows by 1. A tick in DEPLOY_WAIT is one too. No other frame touches
 * the books. They are numbers in the caller's memory, begun with zeros; from then on
 * a module's three add up to the ticks done, if all go through this call.
 *
 * Answers, in this order:
 *   EMS_NOT_BOOKS   not exactly EMS_BOOKS_NUMBERS numbers are lent; the image is not
 *                   looked at
 *   1 to 6          what ems_step refuses the frame with
 *   EMS_BOOKS_FULL  any number is above EMS_MOST_SECONDS, whatever the frame; or this
 *                   is a tick, and one of the eight numbers that it would raise is
 *                   EMS_MOST_SECONDS
 *   7 to 10, 0      what ems_step answers
 * At EMS_NOT_BOOKS and 1 to 7, and at EMS_BOOKS_FULL, books, image and room stay as
 * they are; so EMS_BOOKS_FULL uses up no serial. At the others image and room are as
 * ems_step leaves them. */
uint8_t ems_step_books(uint8_t *image, size_t image_len,
                       const uint8_t *frame, size_t frame_len,
                       uint8_t *room, size_t room_len,
                       uint64_t *books, size_t books_len);

/* Tells from the books which share of its time each module was on: its seconds on, in
 * thousandths of its three numbers together, rounded down, 0 to 1000; 0 where they are
 * all 0. Answers, in this order:
 *   EMS_NOT_BOOKS   not exactly EMS_BOOKS_NUMBERS numbers are lent
 *   EMS_BOOKS_FULL  any number is above EMS_MOST_SECONDS
 *   EMS_NO_ROOM     fewer than EMS_MODULES shares are lent; nothing is written
 *   EMS_DONE        the first EMS_MODULES shares are those of the modules
 * At EMS_NOT_BOOKS and EMS_BOOKS_FULL the first EMS_MODULES shares are 0, or all where
 * fewer are lent. Shares past them stay. */
uint8_t ems_summary(const uint64_t *books, size_t books_len,
                    uint16_t *shares, size_t shares_len);

/* Write the beacon's text of a state, and its length to `*count`. Answers:
 * EMS_BAD_STATE, then EMS_NO_ROOM, both with `*count` 0 and the text untouched;
 * else EMS_DONE. Bytes past the text stay. */
uint8_t ems_beacon_basic(const uint8_t *image, size_t image_len,
                         uint8_t *text, size_t text_len, size_t *count);
uint8_t ems_beacon_complete(const uint8_t *image, size_t image_len,
                            uint8_t *text, size_t text_len, size_t *count);

/* The same for the extended beacon, which is had as long as a message is kept, in
 * every mode and also when its repeats are used up. Answers: EMS_BAD_STATE, then
 * EMS_NO_MESSAGE, then EMS_NO_ROOM, all with `*count` 0 and the text untouched; else
 * EMS_DONE. Bytes past the text stay. */
uint8_t ems_beacon_extended(const uint8_t *image, size_t image_len,
                            uint8_t *text, size_t text_len, size_t *count);

/* Keys a text: one byte a unit, 1 key down, 0 key up, their number to `*count`.
 * Answers 11, 12, 13, 14 in this order, with `*count` 0 and the units untouched;
 * else EMS_DONE. It never answers 14 where `units_len` is EMS_UNITS_FOR(text_len)
 * or more. Bytes past the last unit stay. */
uint8_t ems_key(const uint8_t *text, size_t text_len,
                uint8_t *units, size_t units_len, size_t *count);

/* Reads units back: the text that they are the keying of, its length to
 * `*count`. Answers 15, then 14, with `*count` 0 and the text untouched; else
 * EMS_DONE. No units are the empty text. Bytes past the text stay. */
uint8_t ems_read(const uint8_t *units, size_t units_len,
                 uint8_t *text, size_t text_len, size_t *count);

/* Moves a panel's set point towards the voltage at which the panel gives most. It has
 * nothing to do with an image.
 *
 * Volts are in millivolts, 0 to EMS_MOST_MILLIVOLTS, and so is the set point; amps in
 * milliamperes, 0 to EMS_MOST_MILLIAMPERES; the step in millivolts, 1 to
 * EMS_LONGEST_STEP or as much below 0. Power is volts times amps. Where it is less
 * after the last move than before it, the step turns: it gets the other sign. Then
 * the set point moves by the step; a move below 0 or past EMS_MOST_MILLIVOLTS stops
 * there and turns the step, one that just gets there does not. A step keeps its size.
 *
 * How to use it, over and over: measure the panel, hold it at the set point, measure
 * it again, and call with the readings before and after; the one after is the next
 * call's before. At the first call both may be the same reading: the step then keeps
 * its sign.
 *
 * EMS_DONE, and `*set_point` and `*step` are the next ones; or EMS_OUT_OF_RANGE, and
 * both stay as they are. */
uint8_t ems_track(uint32_t volts_before, uint32_t amps_before,
                  uint32_t volts_after, uint32_t amps_after,
                  uint32_t *set_point, int32_t *step);

#ifdef __cplusplus
}
#endif

#endif /* EMS_H */
