/* factory.c: see factory.h. */
#include "factory.h"

const uint8_t FACTORY_IMAGE[ZIKHRODAN_IMAGE_LEN] = {
#include "factory-image.h" /* made of data/factory-image.hex by station/build */
};
