/* generate.h: random calls that are likely to matter. Their bytes lie in memory that the next call of that kind takes again. */
#ifndef GENERATE_H
#define GENERATE_H

#include "call.h"

/* Mostly the right length of the memory's front; else a wrong one up to `room`, also none at a null pointer. */
struct bytes of_length(const uint8_t *at, size_t right, size_t room, unsigned percent_wrong);

/* Anything: as likely a few bits as many, and as likely just below 2^64. */
uint64_t any_number(void);

/* What a history begins with: a real module's bytes, random ones made sound or not, or a wrong number of them. */
struct bytes some_beginning(void);

/* An image of 640 bytes with right check codes, real or random, flat or not, pages and Tx power offered or not. */
void some_image(uint8_t *image);

/* Each is mostly one that will be accepted. `state` is the 688 bytes that stand now, or null if there are none. */
struct call some_reset(void);
struct call some_sample(const uint8_t *state);
struct call some_read(uint64_t port);
struct call some_write(uint64_t port);
struct call some_identity(const uint8_t *state);
uint64_t some_port(void);

/* A call of any kind but VALUE and LIMIT, which go with KIND and LIMITS. */
struct call some_call(const uint8_t *state);

#endif
