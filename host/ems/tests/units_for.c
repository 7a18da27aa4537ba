/* The room that EMS_UNITS_FOR sets aside: for an int and a size_t, for constants, and before there is a program. */
#include "ems.h"
#include <stdio.h>

#if EMS_UNITS_FOR(0) != 0 || EMS_UNITS_FOR(1) != 19 || EMS_UNITS_FOR(EMS_TEXT_BYTES) != EMS_UNITS_BYTES
#error "EMS_UNITS_FOR is another one to the preprocessor"
#endif

int main(void)
{
    uint8_t two[EMS_UNITS_FOR(1 + 1)], twice_one[2 * EMS_UNITS_FOR(1)], any[EMS_UNITS_BYTES];
    size_t n;
    int i;

    for (i = 0, n = 0; n <= EMS_TEXT_BYTES; i++, n++)
        printf("%d %d %lu\n", i, EMS_UNITS_FOR(i), (unsigned long)EMS_UNITS_FOR(n));
    printf("%d %d %d\n", (int)sizeof two, (int)sizeof twice_one, (int)sizeof any);
    return 0;
}
