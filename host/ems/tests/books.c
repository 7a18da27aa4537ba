/* Seconds in the books: three in DEPLOY_WAIT, two in RECOVERY, one that the books are too full for; the shares that
 * they are; and one number too few. */
#include "ems.h"
#include <stdio.h>

#if EMS_MOST_SECONDS / 1000000000 != 1000000 || EMS_BOOKS_NUMBERS != 3 * EMS_MODULES
#error "the limits are others to the preprocessor"
#endif

static uint8_t image[EMS_IMAGE_BYTES], room[EMS_REPORT_BYTES];
static uint64_t books[EMS_BOOKS_NUMBERS];
static const uint8_t second[2] = { EMS_KIND_TICK, 0 }, deployed[2] = { EMS_KIND_ANTENNAS, 1 };

/* A second with so many numbers of the books. */
static int tick(size_t numbers)
{
    return ems_step_books(image, sizeof image, second, sizeof second, room, sizeof room, books, numbers);
}

/* An answer, and what MCS and ADCS have in the books. */
static void show(int answer)
{
    int m;
    printf("%d", answer);
    for (m = 0; m <= 3; m += 3)
        printf(" | %lu %lu %lu", (unsigned long)books[3 * m], (unsigned long)books[3 * m + 1],
               (unsigned long)books[3 * m + 2]);
    printf("\n");
}

/* The answer to a summary of so many numbers, and the shares of MCS, COMM1 and ADCS. */
static void show_shares(size_t numbers)
{
    uint16_t shares[EMS_MODULES];
    int answer = ems_summary(books, numbers, shares, EMS_MODULES);
    printf("%d | %d %d %d\n", answer, shares[0], shares[1], shares[3]);
}

int main(void)
{
    int i;

    if (ems_fresh(image, sizeof image) != EMS_DONE) return 1;
    for (i = 0; i < 3; i++) show(tick(EMS_BOOKS_NUMBERS));
    /* To RECOVERY, with none of it in the books. */
    ems_step(image, sizeof image, deployed, sizeof deployed, room, sizeof room);
    for (i = 0; i < 901; i++) ems_step(image, sizeof image, second, sizeof second, room, sizeof room);
    for (i = 0; i < 2; i++) show(tick(EMS_BOOKS_NUMBERS));
    books[0] = EMS_MOST_SECONDS;
    show(tick(EMS_BOOKS_NUMBERS));
    show_shares(EMS_BOOKS_NUMBERS);
    show(tick(EMS_BOOKS_NUMBERS - 1));
    show_shares(EMS_BOOKS_NUMBERS - 1);
    return 0;
}
