#include "books.h"
#define NUMBERS 24
#define MOST 1000000000000000u

static int any_above(const uint64_t *books, uint64_t limit)
{
    for (int i = 0; i < NUMBERS; i++) if (books[i] > limit) return 1;
    return 0;
}

/* A module's number for the second in which it is so: on, off and failed stand as PW_ON, PW_OFF and PW_FAILED. */
static int number_of(const struct ems *s, int i) { return 3 * i + s->m[i].power; }

static int full(const struct ems *s, const uint64_t *books)
{
    for (int i = 0; i < 8; i++) if (books[number_of(s, i)] >= MOST) return 1;
    return 0;
}

uint8_t peer_step_books(struct ems *s, const uint8_t *f, size_t n, uint8_t *room, size_t room_n,
                        uint64_t *books, size_t books_n)
{
    if (books_n != NUMBERS) return 18;
    if (any_above(books, MOST - 1)) {
        /* It may be 17, which is known after the frame: first into a copy. */
        struct ems next = *s;
        uint8_t report[11], answer = peer_step(&next, f, n, report, room_n);
        if (1 <= answer && answer <= 6) return answer;
        if (any_above(books, MOST) || (f[0] == 1 && full(&next, books))) return 17;
    }
    uint8_t answer = peer_step(s, f, n, room, room_n);
    if (answer == 0 && f[0] == 1) for (int i = 0; i < 8; i++) books[number_of(s, i)]++;
    return answer;
}

uint8_t peer_summary(const uint64_t *books, size_t books_n, uint16_t *shares, size_t room)
{
    uint8_t refusal = books_n != NUMBERS ? 18 : any_above(books, MOST) ? 17 : 0;
    if (refusal) {
        for (size_t i = 0; i < 8 && i < room; i++) shares[i] = 0;
        return refusal;
    }
    if (room < 8) return 14;
    for (int i = 0; i < 8; i++, books += 3) {
        uint64_t all = books[0] + books[1] + books[2];
        shares[i] = (uint16_t)(all ? 1000 * books[0] / all : 0);
    }
    return 0;
}
