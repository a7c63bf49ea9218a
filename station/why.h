/* why.h: why a call was refused, in words: the one reason, where the refusal's own words (zikhrodan.h) name several and the call
 * shows which it is. What is given stays until the next call of these. */
#ifndef WHY_H
#define WHY_H

#include "logfile.h"
#include "state.h"

/* Of a question to a port of a module: 3 names the port. */
const char *why_port(const struct kind *kind, uint32_t refusal, uint64_t port);

/* Of a read, of a write: 4 and 5 by what they are of, 7 with the first byte that is not the recorder's own. */
const char *why_read(const struct kind *kind, uint32_t refusal, uint64_t port);
const char *why_write(const struct state *state, uint32_t refusal, uint64_t port, uint64_t address, size_t count);

/* Of a sample: 3 names the port whose record it is. */
const char *why_sample(const struct state *state, uint32_t refusal);

/* Of a reset: 10 says which check code. */
const char *why_image(uint32_t refusal, const uint8_t *image, size_t len);

/* Of a change of a sound log: 14 says which of the two it is. */
const char *why_change(const struct logfile *log, uint32_t refusal);

/* Of an unsound log, which is whole blocks: the first bad one, and whether it is bad by itself. */
const char *why_unsound(const struct logfile *log);

/* Of a reading of a sound log, of the question when a line died: 17 is the position's, is the bit's. */
const char *why_position(uint32_t refusal);
const char *why_line(uint32_t refusal);

#endif
