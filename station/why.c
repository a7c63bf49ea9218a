/* why.c: see why.h. */
#include "why.h"
#include "ask.h"
#include "logcalls.h"

#include <inttypes.h>
#include <stdio.h>

enum { BLOCK = ZIKHRODAN_BLOCK_LEN, ADDRESSES = 256, ROOM = 160 };
static char text[ROOM];

const char *why_port(const struct kind *kind, uint32_t refusal, uint64_t port)
{
    if (refusal != ZIKHRODAN_UNSOUND_RECORD)
        return kind->words(refusal);
    snprintf(text, sizeof text, "the %s's record in the state is unsound", port_name(port));
    return text;
}

const char *why_read(const struct kind *kind, uint32_t refusal, uint64_t port)
{
    if (refusal == ZIKHRODAN_TRANSFER_SIZE)
        return "a read is of 1 to 128 bytes";
    return refusal == ZIKHRODAN_RANGE && kind->pages ? "it ends past address 255" : why_port(kind, refusal, port);
}

/* Whether the library takes a write of one byte there for another's. */
static bool not_its_own(const struct state *state, uint64_t port, uint64_t address)
{
    struct state copy = *state;
    uint32_t answer = copy.kind->write(copy.bytes, copy.len, port, address, &(uint8_t){0}, 1);

    return zikhrodan_refusal_of(answer) == ZIKHRODAN_NOT_ITS_OWN;
}

const char *why_write(const struct state *state, uint32_t refusal, uint64_t port, uint64_t address, size_t count)
{
    uint64_t first = address;

    if (refusal == ZIKHRODAN_TRANSFER_SIZE)
        return "a write is of 1 to 4 bytes";
    if (refusal == ZIKHRODAN_RANGE && state->kind->pages)
        return address > ADDRESSES - count ? "it ends past address 255" : "it is a write across addresses 127 and 128";
    if (refusal != ZIKHRODAN_NOT_ITS_OWN)
        return why_port(state->kind, refusal, port);
    while (first < address + count && !not_its_own(state, port, first))
        first++;
    snprintf(text, sizeof text, "%s: %" PRIu64, state->kind->words(refusal), first);
    return text;
}

const char *why_sample(const struct state *state, uint32_t refusal)
{
    uint64_t port = ZIKHRODAN_OPERATOR;

    if (refusal == ZIKHRODAN_UNSOUND_RECORD && ask_port(state, port).refusal == ZIKHRODAN_ACCEPTED)
        port = ZIKHRODAN_RECORDER;
    return why_port(state->kind, refusal, port);
}

const char *why_image(uint32_t refusal, const uint8_t *image, size_t len)
{
    if (refusal != ZIKHRODAN_CHECK_CODE || len != ZIKHRODAN_IMAGE_LEN)
        return zikhrodan_words(refusal);
    struct codes_view right = ask_codes(image + ZIKHRODAN_PAGE_00_AT);
    snprintf(text, sizeof text, "the factory image's check code%s wrong",
             right.first ? " at 223 is" : right.second ? " at 191 is" : "s at 191 and 223 are");
    return text;
}

const char *why_change(const struct logfile *log, uint32_t refusal)
{
    if (refusal != ZIKHRODAN_LOG_FULL)
        return zikhrodan_words(refusal);
    return log->used == log->held.blocks ? "a new block is needed, and none is unused"
                                         : "a new block is needed, and the last one's number is 4294967295";
}

const char *why_unsound(const struct logfile *log)
{
    uint64_t sound = 0, not_sound = log->used; /* so many blocks are a sound log, and so many are not */

    while (sound + 1 < not_sound) {
        uint64_t middle = sound + (not_sound - sound) / 2;
        if (blocks_sound(log->bytes, middle))
            sound = middle;
        else
            not_sound = middle;
    }
    if (blocks_sound(log->bytes + sound * BLOCK, 1))
        snprintf(text, sizeof text, "block %" PRIu64 " of the %" PRIu64 " used has number %" PRIu64 ", after number %" PRIu64,
                 sound + 1, log->used, log_number(log, sound), log_number(log, sound - 1));
    else
        snprintf(text, sizeof text, "block %" PRIu64 " of the %" PRIu64 " used is unsound", sound + 1, log->used);
    return text;
}

const char *why_position(uint32_t refusal)
{
    return refusal == ZIKHRODAN_NO_SUCH_SAMPLE ? "the position is past the last sample" : zikhrodan_words(refusal);
}

const char *why_line(uint32_t refusal)
{
    return refusal == ZIKHRODAN_NO_SUCH_SAMPLE ? "the status bit is above 23" : zikhrodan_words(refusal);
}
