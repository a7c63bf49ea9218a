/* random.c: splitmix64. */
#include "random.h"

#include <string.h>

static uint64_t now;

void random_seed(uint64_t seed)
{
    now = seed;
}

uint64_t random_number(void)
{
    uint64_t mixed = now += 0x9e3779b97f4a7c15;
    mixed = (mixed ^ mixed >> 30) * 0xbf58476d1ce4e5b9;
    mixed = (mixed ^ mixed >> 27) * 0x94d049bb133111eb;
    return mixed ^ mixed >> 31;
}

uint64_t random_size(void)
{
    uint64_t number = random_number();
    return number >> random_below(64);
}

unsigned random_below(unsigned limit)
{
    return (unsigned)((random_number() >> 32) * limit >> 32);
}

bool chance(unsigned percent)
{
    return random_below(100) < percent;
}

void random_fill(uint8_t *at, size_t len)
{
    for (size_t i = 0; i < len; i += 8) {
        uint64_t number = random_number();
        memcpy(at + i, &number, len - i < 8 ? len - i : 8);
    }
}
