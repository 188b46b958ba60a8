/* A library that differs from the right one in one answer, for the comparison to find: a length of 17 m is 18. */
#include "bofrashem.h"

uint8_t __real_ynd_length_between(float ax, float ay, float az, float bx, float by, float bz);
uint8_t __wrap_ynd_length_between(float ax, float ay, float az, float bx, float by, float bz);

uint8_t __wrap_ynd_length_between(float ax, float ay, float az, float bx, float by, float bz)
{
    uint8_t length = __real_ynd_length_between(ax, ay, az, bx, by, bz);
    return length == 17 ? 18 : length;
}
