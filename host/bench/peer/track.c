#include "track.h"
#define VOLTS 20000
#define AMPS 5000
#define STEP 500

uint8_t peer_track(uint32_t volts_before, uint32_t amps_before, uint32_t volts_after, uint32_t amps_after,
                   uint32_t *set_point, int32_t *step)
{
    int32_t by = *step, to;
    if (volts_before > VOLTS || amps_before > AMPS || volts_after > VOLTS || amps_after > AMPS) return 16;
    if (*set_point > VOLTS || by < -STEP || by > STEP || by == 0) return 16;
    if (volts_after * amps_after < volts_before * amps_before) by = -by;
    to = (int32_t)*set_point + by;
    if (to < 0) { to = 0; by = -by; }
    else if (to > VOLTS) { to = VOLTS; by = -by; }
    *set_point = (uint32_t)to;
    *step = by;
    return 0;
}
