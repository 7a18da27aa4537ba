/* The bytes of stack that each call takes: it runs on a stack of its own, painted
 * before, and the lowest byte that isn't paint any more tells. */
#define _XOPEN_SOURCE 700
#include "ems.h"
#include <stdio.h>
#include <string.h>
#include <ucontext.h>

#define PAINT 0xA5

static uint8_t stack[1 << 16];
static ucontext_t here, there;

static uint8_t image[EMS_IMAGE_BYTES], report[EMS_REPORT_BYTES];
static uint8_t text[EMS_TEXT_BYTES], units[EMS_UNITS_BYTES];
static uint64_t books[EMS_BOOKS_NUMBERS];
static uint16_t shares[EMS_MODULES];
static size_t count;
static int with_books;

static void frame(const char *bytes, size_t length) {
    const uint8_t *frame = (const uint8_t *)bytes;
    if (with_books)
        ems_step_books(image, sizeof image, frame, length, report, sizeof report, books,
                       EMS_BOOKS_NUMBERS);
    else
        ems_step(image, sizeof image, frame, length, report, sizeof report);
}

/* A board from its start to SAFE, with orders, an end that comes, a greeting, shorts,
 * tries that come back, and refusals. */
static void step(void) {
    int seconds;
    ems_fresh(image, sizeof image);
    frame("\3\1", 2);
    frame("\2\x1E\x78", 3);
    for (seconds = 0; seconds < 2000; seconds++)
        frame(seconds % 7 ? "\1\0" : "\1\xFF", 2);
    frame("\4\1\0\1\4\1", 6);
    frame("\4\1\0\1\4\1", 6);
    frame("\5\1\0\2\x1C\xE8\x1B\x58", 8);
    frame("\5\2\0\2\x1C\xE8\x1B\x58", 8);
    frame("\4\1\0\3\10\1", 6);
    frame("\6\1\0\3\4\0\1", 7);
    frame("\7\1\0\4\2\15hello from 4b\0\0\0", 22);
    frame("\7\1\0\4\2\15HELLO FROM 4B\0\0\0", 22);
    for (seconds = 0; seconds < 200; seconds++)
        frame("\1\0", 2);
}

/* The same with books, which are full at last. */
static void step_books(void) {
    memset(books, 0, sizeof books);
    with_books = 1;
    step();
    books[0] = EMS_MOST_SECONDS;
    frame("\1\0", 2);
    with_books = 0;
}

/* The same kinds of frames in one call, up to one that is refused. */
static void pass(void) {
    static const uint8_t frames[] = "\1\0\1\xFF\2\x1E\x78\3\1\4\1\0\5\4\1\4\1\0\5\4\1"
                                    "\5\1\0\6\x1C\xE8\x1B\x58\6\1\0\7\4\0\1"
                                    "\7\1\0\10\2\15HELLO FROM 4B\0\0\0\1\0\5\2";
    static uint8_t reports[20 * EMS_REPORT_BYTES];
    ems_pass(image, sizeof image, frames, sizeof frames - 1, reports, sizeof reports, &count);
}

static void nothing(void) {}
static void fresh(void) { ems_fresh(image, sizeof image); }
static void modules_on(void) { ems_modules_on(image, sizeof image, &count); }
static void summary(void) { ems_summary(books, EMS_BOOKS_NUMBERS, shares, EMS_MODULES); }
static void basic(void) { ems_beacon_basic(image, sizeof image, text, sizeof text, &count); }
static void complete(void) { ems_beacon_complete(image, sizeof image, text, sizeof text, &count); }
static void extended(void) { ems_beacon_extended(image, sizeof image, text, sizeof text, &count); }

static void key(void) {
    memset(text, '0', sizeof text);
    ems_key(text, sizeof text, units, sizeof units, &count);
}

static void read_back(void) { ems_read(units, count, text, sizeof text, &count); }

/* A set point that goes on, turns, stops at both ends, and is refused. */
static void track(void) {
    static uint32_t set_point = 19900;
    static int32_t step = 70;
    int calls;
    for (calls = 0; calls < 4; calls++)
        ems_track(4300, 440, 4400, 430, &set_point, &step);
    set_point = 60;
    ems_track(4400, 430, 4500, 413, &set_point, &step);
    ems_track(4400, 430, 4500, 413, &set_point, &step);
    ems_track(4400, 430, 4500, 5001, &set_point, &step);
}

/* The bytes of the stack that a call has painted over. */
static size_t taken(void (*call)(void)) {
    size_t left = 0;
    memset(stack, PAINT, sizeof stack);
    getcontext(&there);
    there.uc_stack.ss_sp = stack;
    there.uc_stack.ss_size = sizeof stack;
    there.uc_link = &here;
    makecontext(&there, call, 0);
    swapcontext(&here, &there);
    while (stack[left] == PAINT)
        left++;
    return sizeof stack - left;
}

/* The same of a call by itself; before that it runs once, so that the linker has
 * looked up what it calls. */
static void measure(const char *name, void (*call)(void)) {
    call();
    printf("%s %zu\n", name, taken(call) - taken(nothing));
}

int main(void) {
    measure("ems_fresh", fresh);
    measure("ems_step", step);
    measure("ems_pass", pass);
    measure("ems_modules_on", modules_on);
    measure("ems_step_books", step_books);
    measure("ems_summary", summary);
    measure("ems_beacon_basic", basic);
    measure("ems_beacon_complete", complete);
    measure("ems_beacon_extended", extended);
    measure("ems_key", key);
    measure("ems_read", read_back);
    measure("ems_track", track);
    return 0;
}
