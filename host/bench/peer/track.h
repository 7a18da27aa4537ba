/* A peer, as ems.h: the panel tracker by hand, from document 02, for cost's sake. */
#ifndef PEER_TRACK_H
#define PEER_TRACK_H
#include <stdint.h>

uint8_t peer_track(uint32_t volts_before, uint32_t amps_before, uint32_t volts_after, uint32_t amps_after,
                   uint32_t *set_point, int32_t *step);
#endif
