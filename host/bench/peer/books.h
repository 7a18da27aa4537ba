/* A peer: the seconds of the modules in the books, by hand from document 02. */
#ifndef PEER_BOOKS_H
#define PEER_BOOKS_H
#include "ems.h"

uint8_t peer_step_books(struct ems *s, const uint8_t *f, size_t n, uint8_t *room, size_t room_n,
                        uint64_t *books, size_t books_n);
uint8_t peer_summary(const uint64_t *books, size_t books_n, uint16_t *shares, size_t room);
#endif
