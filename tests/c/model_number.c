/* A model of rounding. */
#include "models.h"

/* The thousandths of a number by its digits, of which the last ones, 1 at least, count less than a thousandth: the first
 * of these decides. A 5 with only zeros behind it is a half, which goes to the even neighbour. */
uint64_t model_thousandths(const char *digits, size_t n, size_t below) {
    const char *dropped = digits + (n - below);
    uint64_t size = 0;
    for (const char *p = digits; p < dropped; p++)
        size = 10 * size + (uint64_t)(*p - '0');
    if (*dropped != '5')
        return size + (*dropped > '5');
    return size + (strspn(dropped + 1, "0") + 1 < below || size % 2 == 1);
}
