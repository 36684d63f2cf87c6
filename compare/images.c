/* Images by chance: those that fit a net, and the ways in which some do not. */
#include "images.h"

#include <string.h>

/* Two bytes, lowest first. */
static void put_low_first(uint8_t *bytes, unsigned number)
{
    bytes[0] = (uint8_t)number;
    bytes[1] = (uint8_t)(number >> 8);
}

/* The four bytes of a transition. */
static uint8_t *image_of_transition(uint8_t *image, unsigned t)
{
    return image + 4 * (PLACES + t);
}

void fitting_image(dice *d, const made_net *n, bool brimful,
                   uint8_t image[IMAGE_BYTES])
{
    memset(image, 0, IMAGE_BYTES);
    for (unsigned p = 0; p < n->places; p++)
        put_low_first(image + 4 * n->place[p], pick_tokens(d, false, brimful));
    for (unsigned t = 0; t < n->transitions; t++) {
        if (n->timing[t] == UNTIMED)
            continue;
        const unsigned a = n->a[t];
        const unsigned highest = n->timing[t] == INTERVAL ? n->b[t] + 1 : a;
        const unsigned counters[5] = { 0, a - 1, a, highest,
                                       below(d, highest + 1) };
        uint8_t *r = image_of_transition(image, n->transition[t]);
        put_low_first(r, counters[below(d, 5)]);
        r[2] = one_in(d, 4);
    }
}

/* A counter one or more above what its transition allows, if there is such a
   number. */
static void overrun_counter(dice *d, const made_net *n, uint8_t *image)
{
    const unsigned t = below(d, n->transitions);
    const unsigned highest = n->timing[t] == INTERVAL ? n->b[t] + 1 : n->a[t];
    if (highest == 65535)
        return;
    put_low_first(image_of_transition(image, n->transition[t]),
                  one_in(d, 2) ? highest + 1 : from_to(d, highest + 1, 65535));
}

/* One of the ways in which an image does not fit, or may not. */
static void spoil_image_once(dice *d, const made_net *n, uint8_t *image)
{
    const unsigned p = n->place[below(d, n->places)];
    const unsigned t = n->transition[below(d, n->transitions)];
    const unsigned any_place = one_in(d, 2) ? p : below(d, 128);
    const unsigned any_transition = one_in(d, 2) ? t : below(d, 64);
    const uint8_t not_zero = (uint8_t)from_to(d, 1, 255);
    switch (below(d, 8)) {
    case 0: /* an unused byte of a place */
        image[4 * any_place + from_to(d, 2, 3)] = not_zero;
        break;
    case 1: /* the unused byte of a transition */
        image_of_transition(image, any_transition)[3] = not_zero;
        break;
    case 2: /* tokens where there may be no place */
        image[4 * any_place + below(d, 2)] = not_zero;
        break;
    case 3: /* a counter where there may be no transition */
        image_of_transition(image, any_transition)[below(d, 2)] = not_zero;
        break;
    case 4: /* a reset order that is no such thing */
        image_of_transition(image, t)[2] = one_in(d, 2) ? 2 : not_zero;
        break;
    case 5: /* a reset order where there may be no timed transition */
        image_of_transition(image, any_transition)[2] = 1;
        break;
    default:
        overrun_counter(d, n, image);
    }
}

void spoil_image(dice *d, const made_net *n, uint8_t image[IMAGE_BYTES])
{
    const unsigned times = from_to(d, 1, 3);
    for (unsigned i = 0; i < times; i++)
        spoil_image_once(d, n, image);
}
