#include "dates.h"
#include <stdio.h>

static dates_tables t;

int main(void)
{
    enum { cutting, drying, delivery };
    uint32_t value, i;
    if (dates_t_open(&t, 3) != DATES_DONE) return 1;
    /* Drying at least 2 days after cutting, delivery at least 3 days after drying. */
    if (dates_t_add(&t, cutting, drying, -2, &value) != DATES_DONE) return 1;
    if (dates_t_add(&t, drying, delivery, -3, &value) != DATES_DONE) return 1;
    printf("delivery on day %u\n", (unsigned)t.days[delivery]);
    /* Delivery at most 4 days after cutting. */
    if (dates_t_add(&t, delivery, cutting, 4, &value) == DATES_CONFLICT) {
        printf("no delivery on day 4, because of rules");
        for (i = 0; i < value; i++) printf(" %u", (unsigned)t.ring[i]);
        printf("\n");
    }
    return 0;
}
