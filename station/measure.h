/* measure.h: what the numbers of a sample are in units: those of a module that has been fed it. */
#ifndef MEASURE_H
#define MEASURE_H

#include "names.h"
#include "state.h"

/* A module that is reset to the built-in factory image. */
const struct state *factory_module(void);

/* What a module's monitors have after the sample; the module stays as it is. Gives the refusal, where it takes no sample; its
 * monitors then have what they had. */
uint32_t measure(const struct state *module, const uint8_t *sample, enum zikhrodan_kind kinds[MONITORS], double values[MONITORS]);

#endif
