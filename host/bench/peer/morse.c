#include "morse.h"

/* A sign's marks from the highest bit below the leading 1: 0 dot, 1 dash; 0 for a byte that has none. From '?' to 'Z'. */
static const uint8_t letters[28] = {
    0x4C, 0,
    0x05, 0x18, 0x1A, 0x0C, 0x02, 0x12, 0x0E, 0x10, 0x04, 0x17, 0x0D, 0x14, 0x07,
    0x06, 0x0F, 0x16, 0x1D, 0x0A, 0x08, 0x03, 0x09, 0x11, 0x0B, 0x19, 0x1B, 0x1C,
};

/* From ',' to '/'. */
static const uint8_t stops[4] = {0x73, 0, 0x55, 0x32};

/* Those of a figure: up to 4 so many dots, then dashes; from 5 on none to four dashes, then dots. */
static uint8_t figure(uint8_t digit)
{
    return (uint8_t)(digit < 5 ? 0x20 + (0x1F >> digit) : 0x3F - (0x1F >> (digit - 5)));
}

/* A sign's marks, by what they stand for; 0 for a byte that has none. */
static uint8_t sign(uint8_t c)
{
    if (c >= '?' && c <= 'Z') return letters[c - '?'];
    if (c >= '0' && c <= '9') return figure((uint8_t)(c - '0'));
    if (c >= ',' && c <= '/') return stops[c - ','];
    return 0;
}

/* What marks stand for, the letters; 0 for none. */
static const uint8_t heard_letters[32] = {
    [0x05] = 'A', [0x18] = 'B', [0x1A] = 'C', [0x0C] = 'D', [0x02] = 'E', [0x12] = 'F', [0x0E] = 'G',
    [0x10] = 'H', [0x04] = 'I', [0x17] = 'J', [0x0D] = 'K', [0x14] = 'L', [0x07] = 'M', [0x06] = 'N',
    [0x0F] = 'O', [0x16] = 'P', [0x1D] = 'Q', [0x0A] = 'R', [0x08] = 'S', [0x03] = 'T', [0x09] = 'U',
    [0x11] = 'V', [0x0B] = 'W', [0x19] = 'X', [0x1B] = 'Y', [0x1C] = 'Z',
};

/* What five marks stand for, if that is a figure; else 0. A figure has d marks of one kind, then 5 - d of the other: with
   dashes last it is 2^(5 - d) past 31, with dots last as much before 64. */
static uint8_t heard_figure(uint8_t marks)
{
    uint8_t byte = marks & 1 ? '0' : '5', rest = (uint8_t)(marks & 1 ? marks - 31 : 64 - marks);
    for (; rest < 32; rest *= 2) byte++;
    return rest == 32 ? byte : 0;
}

/* What up to six marks stand for; 0 for nothing. */
static uint8_t heard(uint8_t marks)
{
    if (marks < 0x20) return heard_letters[marks];
    uint8_t byte = marks < 0x40 ? heard_figure(marks) : 0;
    if (byte) return byte;
    switch (marks) {
    case 0x55: return '.';
    case 0x73: return ',';
    case 0x4C: return '?';
    case 0x32: return '/';
    default: return 0;
    }
}

static size_t put(uint8_t *units, size_t at, uint8_t unit, int times)
{
    if (units) for (int i = 0; i < times; i++) units[at + i] = unit;
    return at + times;
}

/* Writes the units, or counts them if `units` is null. */
static size_t keyed(const uint8_t *text, size_t n, uint8_t *units)
{
    size_t at = 0;
    for (size_t i = 0; i < n; i++) {
        if (text[i] == ' ') { at = put(units, at, 0, 4); continue; }
        uint8_t s = sign(text[i]);
        int bit = 7;
        while (!(s >> bit)) bit--;
        while (bit--) {
            at = put(units, at, 1, s >> bit & 1 ? 3 : 1);
            if (bit) at = put(units, at, 0, 1);
        }
        if (i + 1 < n) at = put(units, at, 0, 3);
    }
    return at;
}

uint8_t peer_text(const uint8_t *text, size_t n)
{
    if (n > 64) return 11;
    for (size_t i = 0; i < n; i++) if (text[i] != ' ' && !sign(text[i])) return 12;
    for (size_t i = 0; i < n; i++)
        if (text[i] == ' ' && (i == 0 || i + 1 == n || text[i + 1] == ' ')) return 13;
    return 0;
}

uint8_t peer_key(const uint8_t *text, size_t n, uint8_t *units, size_t room, size_t *count)
{
    *count = 0;
    uint8_t refusal = peer_text(text, n);
    if (refusal) return refusal;
    if (keyed(text, n, 0) > room) return 14;
    *count = keyed(text, n, units);
    return 0;
}

uint8_t peer_read(const uint8_t *units, size_t n, uint8_t *text, size_t room, size_t *count)
{
    uint8_t said[64];
    size_t at = 0, i = 0;
    *count = 0;
    while (i < n) {
        uint8_t marks = 1;
        size_t gap;
        do { /* one sign, and the gap after it */
            size_t down = i;
            while (i < n && units[i] == 1) i++;
            down = i - down;
            if ((down != 1 && down != 3) || marks > 0x3F) return 15;
            marks = (uint8_t)(marks << 1 | (down == 3));
            gap = i;
            while (i < n && units[i] == 0) i++;
            gap = i - gap;
        } while (gap == 1 && i < n);
        uint8_t byte = heard(marks);
        if (at == 64 || !byte) return 15;
        said[at++] = byte;
        if (i == n) { if (gap) return 15; break; }
        if (gap == 7) { if (at == 64) return 15; said[at++] = ' '; }
        else if (gap != 3) return 15;
    }
    if (at > room) return 14;
    for (i = 0; i < at; i++) text[i] = said[i];
    *count = at;
    return 0;
}
