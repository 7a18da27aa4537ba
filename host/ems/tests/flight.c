/* The shortest flight from C: a frame, its report, a pass, two beacons, their units, how many modules are on; and two
 * calls of the tracker. */
#include "ems.h"
#include <stdio.h>

int main(void)
{
    uint8_t image[EMS_IMAGE_BYTES], room[EMS_REPORT_BYTES], reports[4 * EMS_REPORT_BYTES];
    uint8_t text[EMS_BEACON_EXTENDED_BYTES], units[EMS_UNITS_FOR(EMS_BEACON_EXTENDED_BYTES)];
    const uint8_t deployed[2] = { EMS_KIND_ANTENNAS, 1 }, second[2] = { EMS_KIND_TICK, 0 };
    /* A reading, an order that comes too early, a greeting, a second that is cut off. */
    const uint8_t pass[32] = {
        EMS_KIND_BATTERY, 0x1E, 0x78, EMS_KIND_ORDER, 1, 0, 1, 4, 1,
        EMS_KIND_GREETING, 1, 0, 2, 3, 10, 'H', 'I', ',', ' ', 'S', 'C', 'H', 'O', 'O', 'L', 0, 0, 0, 0, 0, 0,
        EMS_KIND_TICK
    };
    size_t reported, letters, count;
    uint32_t set_point = 12250;
    int32_t step = 250;
    int i;

    if (ems_fresh(image, sizeof image) != EMS_DONE) return 1;
    printf("%d", ems_step(image, sizeof image, deployed, sizeof deployed, room, sizeof room));
    for (i = 0; i < EMS_REPORT_BYTES; i++) printf(" %02X", room[i]);
    printf("\n%d", ems_pass(image, sizeof image, pass, sizeof pass, reports, sizeof reports, &reported));
    for (i = 0; i < (int)reported; i++) printf(" %02X %d", reports[11 * i + 1], reports[11 * i + 5]);
    if (ems_beacon_basic(image, sizeof image, text, sizeof text, &letters) != EMS_DONE) return 1;
    if (ems_key(text, letters, units, sizeof units, &count) != EMS_DONE) return 1;
    printf("\n%.*s, %d units\n", (int)letters, (const char *)text, (int)count);
    if (ems_beacon_extended(image, sizeof image, text, sizeof text, &letters) != EMS_DONE) return 1;
    if (ems_key(text, letters, units, sizeof units, &count) != EMS_DONE) return 1;
    printf("%.*s, %d units\n", (int)letters, (const char *)text, (int)count);
    /* Up to the second that switches the core four on; then with a bit of the on mask turned. */
    for (i = 0; i < 902; i++) ems_step(image, sizeof image, second, sizeof second, room, sizeof room);
    printf("%d", ems_modules_on(image, sizeof image, &count));
    printf(" %d on, ", (int)count);
    image[53] ^= 1;
    printf("%d", ems_modules_on(image, sizeof image, &count));
    printf(" %d on\n", (int)count);
    /* The power has fallen; then a current that no panel gives. */
    printf("%d", ems_track(12000, 3934, 12250, 3850, &set_point, &step));
    printf(" %d %d, ", (int)set_point, (int)step);
    printf("%d", ems_track(12250, 3850, 12000, EMS_MOST_MILLIAMPERES + 1, &set_point, &step));
    printf(" %d %d\n", (int)set_point, (int)step);
    return 0;
}
