/* Makes N calls with the inputs of one stream, over and over, and prints the
 * nanoseconds that they took and a sum by which the sides are compared. Built
 * twice: over the library, and with -DPEER over the C version in peer/.
 *
 * A stream: what is called ('s' step, 'b' step with books, 'p' pass, 'o' step for one
 * frame of a pass after the other, 'n' number of modules on, 'm' summary of the books, 'e'
 * extended beacon, 'k' key, 'r' read, 't' tracker), an image, the numbers of the books (8
 * bytes each, as they stand in memory), the number of inputs (2 bytes, big-endian), and for
 * each its length (2) and its bytes. */
#define _POSIX_C_SOURCE 199309L
#include <stdio.h>
#include <stdlib.h>
#include <string.h>
#include <time.h>
#ifdef PEER
#include "peer/books.h"
#include "peer/ems.h"
#include "peer/morse.h"
#include "peer/track.h"
#define IMAGE_BYTES 71
#define KEY peer_key
#define READ peer_read
#define SUMMARY peer_summary
#define TRACK peer_track
#else
#include "../../include/ems.h"
#define IMAGE_BYTES EMS_IMAGE_BYTES
#define KEY ems_key
#define READ ems_read
#define SUMMARY ems_summary
#define TRACK ems_track
#endif

/* After so many calls the image is put back, so that a stream stays in its mode, and the
 * books with it. */
#define ROUND 10000
#define NUMBERS 24
#define SHARES 8

static uint8_t file[1 << 16], room[2048];
static uint64_t books[NUMBERS];
static uint16_t shares[SHARES];
static struct { const uint8_t *bytes; size_t length; } inputs[4096];

static unsigned two(const uint8_t *at) { return (unsigned)(at[0] << 8 | at[1]); }

#ifdef PEER
static struct ems state;

/* The image's numbers, the low byte first, and those that stand for modes and modules. */
static unsigned low(const uint8_t *at) { return (unsigned)(at[0] | at[1] << 8); }
enum { SETTLING = 86399, RECOVERY = 87300, OFF = 240, FAILED = 246, REQUESTED = 32768 };

/* The C version has no image: its state is set up from one. */
static void put_back(const uint8_t *image)
{
    unsigned long mode = low(image + 1) + ((unsigned long)image[3] << 16);
    state = (struct ems){
        .mode = mode < RECOVERY ? 0 : mode == RECOVERY ? 1 : 2, .antennas = image[7], .control = image[4],
        .phase = mode <= SETTLING ? 1 : mode < RECOVERY ? 2 : 0,
        .count = mode <= SETTLING ? mode : mode < RECOVERY ? mode - SETTLING : 0,
        .beacon = (uint16_t)low(image + 5), .tension = (uint16_t)low(image + 8),
        .ascend = (uint16_t)low(image + 10), .descend = (uint16_t)low(image + 12),
        .last = { (uint16_t)low(image + 14), (uint16_t)low(image + 16) },
        .message = { .repeats = image[18], .length = image[19] },
        .requested = image[52], .on = image[53], .failed = image[54],
    };
    memcpy(state.message.text, image + 20, sizeof state.message.text);
    for (int i = 0; i < 4; i++)
        state.end[i] = low(image + 36 + 4 * i) + ((uint32_t)low(image + 38 + 4 * i) << 16);
    for (int i = 0; i < 8; i++) {
        unsigned code = low(image + 55 + 2 * i), power = code % REQUESTED;
        state.m[i] = (struct module){
            .power = power <= OFF ? PW_ON : power < FAILED ? PW_OFF : PW_FAILED, .requested = code >= REQUESTED,
            .tries = (uint8_t)(power <= OFF ? power / 60 + 1 : power < FAILED ? power - OFF : 0),
            .seconds = (uint8_t)(power <= OFF ? power % 60 : 0),
            .left = (uint16_t)(power < FAILED ? 0 : power - FAILED) };
    }
}

static uint8_t step(const uint8_t *frame, size_t length, uint8_t *report, size_t left)
{
    return peer_step(&state, frame, length, report, left);
}

static uint8_t step_books(const uint8_t *frame, size_t length, uint8_t *report, size_t left)
{
    return peer_step_books(&state, frame, length, report, left, books, NUMBERS);
}

static uint8_t modules_on(size_t *count) { return peer_modules_on(&state, count); }

static uint8_t extended(size_t *written) { return peer_beacon_extended(&state, room, sizeof room, written); }
#else
static uint8_t state[EMS_IMAGE_BYTES];

static void put_back(const uint8_t *image) { memcpy(state, image, sizeof state); }

static uint8_t step(const uint8_t *frame, size_t length, uint8_t *report, size_t left)
{
    return ems_step(state, sizeof state, frame, length, report, left);
}

static uint8_t step_books(const uint8_t *frame, size_t length, uint8_t *report, size_t left)
{
    return ems_step_books(state, sizeof state, frame, length, report, left, books, NUMBERS);
}

static uint8_t modules_on(size_t *count) { return ems_modules_on(state, sizeof state, count); }

static uint8_t extended(size_t *written)
{
    return ems_beacon_extended(state, sizeof state, room, sizeof room, written);
}
#endif

/* A pass by single calls: the frames are cut by kind, the reports stand end to end.
 * One that is cut off, or of unknown kind, is handed over as it is. */
static uint8_t one_by_one(const uint8_t *frames, size_t length, size_t *written)
{
    static const uint8_t totals[8] = { 0, 2, 3, 2, 6, 8, 7, 22 };
    size_t used = 0;
    uint8_t answer = 0;
    while (length > 0) {
        size_t total = frames[0] < sizeof totals ? totals[frames[0]] : 0;
        if (total == 0 || total > length) total = length;
        answer = step(frames, total, room + used, sizeof room - used);
        if (0 < answer && answer < 8) break;
        answer = 0;
        frames += total;
        length -= total;
        used += 11;
    }
    *written = used;
    return answer;
}

#ifdef PEER
/* The C version has no call for it: its calls in place are a pass. */
#define pass one_by_one
#else
static uint8_t pass(const uint8_t *frames, size_t length, size_t *written)
{
    size_t reported;
    uint8_t answer = ems_pass(state, sizeof state, frames, length, room, sizeof room, &reported);
    *written = 11 * reported;
    return answer;
}
#endif

/* How many modules are on, and the answer, as one number. */
static uint32_t number_on(void)
{
    size_t count;
    uint32_t answer = modules_on(&count);
    return answer + 31 * (uint32_t)count;
}

/* The six numbers of a move, as they stand in memory: what the tracker makes of it, as
 * one number. */
static uint32_t track(const uint8_t *move)
{
    uint32_t numbers[5];
    int32_t by;
    memcpy(numbers, move, sizeof numbers);
    memcpy(&by, move + sizeof numbers, sizeof by);
    uint32_t answer = TRACK(numbers[0], numbers[1], numbers[2], numbers[3], &numbers[4], &by);
    return answer + 31 * numbers[4] + (uint32_t)by;
}

int main(int argc, char **argv)
{
    FILE *in = argc == 3 ? fopen(argv[1], "rb") : NULL;
    if (!in || fread(file, 1, sizeof file, in) < IMAGE_BYTES + sizeof books + 3) return 1;
    long n = atol(argv[2]);
    const uint8_t call = file[0], *image = file + 1, *numbers = image + IMAGE_BYTES, *at = numbers + sizeof books;
    unsigned count = two(at), next = 0;
    at += 2;
    for (unsigned i = 0; i < count; i++) {
        inputs[i].length = two(at);
        inputs[i].bytes = at + 2;
        at += 2 + inputs[i].length;
    }
    unsigned long sum = 0;
    size_t written = 11;
    struct timespec begin, end;
    clock_gettime(CLOCK_MONOTONIC, &begin);
    for (long i = 0, left = 0; i < n; i++, left--) {
        if (left == 0) { put_back(image); memcpy(books, numbers, sizeof books); left = ROUND; next = 0; }
        const uint8_t *bytes = inputs[next].bytes;
        size_t length = inputs[next].length;
        if (++next == count) next = 0;
        if (call == 's') sum += step(bytes, length, room, 11);
        else if (call == 'b') sum += step_books(bytes, length, room, 11);
        else if (call == 'k') sum += KEY(bytes, length, room, sizeof room, &written);
        else if (call == 'r') sum += READ(bytes, length, room, sizeof room, &written);
        else if (call == 'n') sum += number_on();
        else if (call == 'm') sum += SUMMARY(books, NUMBERS, shares, SHARES);
        else if (call == 'e') sum += extended(&written);
        else if (call == 'p') sum += pass(bytes, length, &written);
        else if (call == 'o') sum += one_by_one(bytes, length, &written);
        else sum += track(bytes);
    }
    clock_gettime(CLOCK_MONOTONIC, &end);
    for (size_t i = 0; i < written; i++) sum = sum * 31 + room[i];
    for (size_t i = 0; i < NUMBERS; i++) sum = sum * 31 + books[i];
    for (size_t i = 0; i < SHARES; i++) sum = sum * 31 + shares[i];
    printf("%lld %lu\n", (end.tv_sec - begin.tv_sec) * 1000000000LL + end.tv_nsec - begin.tv_nsec, sum);
    return 0;
}
