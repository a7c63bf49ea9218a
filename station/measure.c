/* measure.c: see measure.h. */
#include "measure.h"
#include "factory.h"

/* An image that is refused would leave no bytes, of which every call is refused. */
const struct state *factory_module(void)
{
    static struct state module = {.kind = &FOUR};

    if (module.len == 0) {
        uint32_t answer = zikhrodan_reset(module.bytes, FOUR.state_len, FACTORY_IMAGE, sizeof FACTORY_IMAGE);
        module.len = zikhrodan_refusal_of(answer) == ZIKHRODAN_ACCEPTED ? FOUR.state_len : 0;
    }
    return &module;
}

uint32_t measure(const struct state *module, const uint8_t *sample, enum zikhrodan_kind kinds[MONITORS], double values[MONITORS])
{
    struct state fed = *module;
    uint32_t refusal = zikhrodan_refusal_of(zikhrodan_sample(fed.bytes, fed.len, sample, ZIKHRODAN_SAMPLE_LEN));

    for (unsigned m = 0; m < MONITORS; m++) {
        kinds[m] = zikhrodan_kind_of(zikhrodan_monitor_kind(fed.bytes, fed.len, m));
        values[m] = zikhrodan_monitor_value(fed.bytes, fed.len, m);
    }
    return refusal;
}
