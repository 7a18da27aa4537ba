/* A peer, as ems.h: keying and reading back by hand, from document 01, for cost's sake. */
#ifndef PEER_MORSE_H
#define PEER_MORSE_H
#include <stddef.h>
#include <stdint.h>

/* What a text is refused with, 11 to 13; 0 where it can be keyed. */
uint8_t peer_text(const uint8_t *text, size_t n);
uint8_t peer_key(const uint8_t *text, size_t n, uint8_t *units, size_t room, size_t *count);
uint8_t peer_read(const uint8_t *units, size_t n, uint8_t *text, size_t room, size_t *count);
#endif
