/* factory.h: the factory image that is built in: data/factory-image.hex. */
#ifndef FACTORY_H
#define FACTORY_H

#include <stdint.h>
#include <zikhrodan.h>

extern const uint8_t FACTORY_IMAGE[ZIKHRODAN_IMAGE_LEN];

#endif
