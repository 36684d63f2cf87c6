/* Numbers by chance, the same on every machine for the same seed. So that this
   holds, no expression throws twice where C leaves the order open. */
#ifndef DICE_H
#define DICE_H

#include <stdbool.h>
#include <stddef.h>
#include <stdint.h>

typedef struct {
    uint64_t state;
} dice;

/* The next 64 bits (splitmix64). */
static inline uint64_t roll(dice *d)
{
    uint64_t z = d->state += UINT64_C(0x9e3779b97f4a7c15);
    z = (z ^ z >> 30) * UINT64_C(0xbf58476d1ce4e5b9);
    z = (z ^ z >> 27) * UINT64_C(0x94d049bb133111eb);
    return z ^ z >> 31;
}

/* The dice of one case: any case can be thrown again alone. */
static inline dice dice_for(uint64_t seed, uint64_t number)
{
    dice d = { seed };
    d.state = roll(&d) ^ number * UINT64_C(0xd1342543de82ef95);
    d.state = roll(&d);
    return d;
}

/* A number from 0 up to but not including the bound. */
static inline unsigned below(dice *d, unsigned bound)
{
    return (unsigned)((roll(d) >> 32) * bound >> 32);
}

/* A number from low to high, both included. */
static inline unsigned from_to(dice *d, unsigned low, unsigned high)
{
    return low + below(d, high - low + 1);
}

/* True once in so many times. */
static inline bool one_in(dice *d, unsigned times)
{
    return below(d, times) == 0;
}

/* Bytes by chance. */
static inline void fill(dice *d, uint8_t *bytes, size_t length)
{
    uint64_t more = 0;
    for (size_t i = 0; i < length; i++) {
        if (i % 8 == 0)
            more = roll(d);
        bytes[i] = (uint8_t)more;
        more >>= 8;
    }
}

#endif
