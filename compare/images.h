/* State images by chance for a net that was made. */
#ifndef IMAGES_H
#define IMAGES_H

#include "nets.h"

/* An image that fits the net, reachable or not; then one that does not. */
void fitting_image(dice *d, const made_net *n, bool brimful,
                   uint8_t image[IMAGE_BYTES]);
void spoil_image(dice *d, const made_net *n, uint8_t image[IMAGE_BYTES]);

#endif
