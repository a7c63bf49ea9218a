/* log_spoilt.c: blocks made unsound. See log_cases.h. */
#include "log_cases.h"

#include "random.h"

static uint32_t block_number(const uint8_t *block)
{
    return (uint32_t)number_at(block) << 16 | number_at(block + 2);
}

/* Where the ways about the number, of a block after another, and about the ending begin; the others come before them. */
enum { NUMBER_WAYS = 7, ENDING_WAYS = 14 };

static void spoil_number(uint8_t *block, unsigned way)
{
    uint32_t right = block_number(block);
    const uint32_t wrong[ENDING_WAYS - NUMBER_WAYS] = {
        right - 1, right + 1, right - 2, right ^ 1u << 31, right ^ 1u << 16, right ^ 1u << 8, ~right,
    };
    set_block_number(block, wrong[way - NUMBER_WAYS]);
}

/* Ways of an ending: a bit changed in 501 to 503; a mark of 2 to 255; a byte of 505 to 509; and of a block with the right summary
 * a bit too many, a bit too few, no mark, or the mark alone. False where the block would be sound, or all bits are there. */
static bool spoil_ending(uint8_t *block, unsigned way)
{
    uint32_t right = status_of_all(block), bit = 1u << random_below(STATUS_BITS);
    if (way < 3)
        block[SUMMARY_AT + way] ^= (uint8_t)(1 << random_below(8));
    else if (way < 9)
        block[SUMMARY_AT + way] = (uint8_t)(way == 3 ? 2 + random_below(254) : 1 + random_below(255));
    if (way < 9)
        return true;
    if (right == (way == 9 ? (1u << STATUS_BITS) - 1 : 0))
        return false;
    while (way <= 10 && (right & bit) != (way == 9 ? 0 : bit))
        bit = 1u << random_below(STATUS_BITS);
    set_status(block + SUMMARY_AT, way <= 10 ? right ^ bit : way == 11 ? right : 0);
    block[MARK_AT] = way != 11;
    return true;
}

bool spoil(uint8_t *log, unsigned block, unsigned way)
{
    uint8_t *at = log + BLOCK_LEN * block;
    unsigned count = at[COUNT_AT];
    bool about_room = way == 2 || way == 3, about_number = way >= NUMBER_WAYS && way < ENDING_WAYS;
    if ((about_room && count == BLOCK_SAMPLES) || (way == 4 && !count) || (about_number && !block))
        return false;
    if (about_room) {
        at[way == 2 ? ROOM_AT + SAMPLE_LEN * count : SUMMARY_AT - 1u] = 1;
    } else if (way == 4) {
        at[COUNT_AT]--;
        at[ROOM_AT + SAMPLE_LEN * count - 1] |= 1;
    } else if (about_number) {
        spoil_number(at, way);
    } else if (way >= ENDING_WAYS) {
        if (!spoil_ending(at, way - ENDING_WAYS))
            return false;
    } else if (way < 2) {
        at[COUNT_AT] = way ? 255 : BLOCK_SAMPLES + 1;
    }
    set_sum(at);
    if (way == 5 || way == 6)
        at[SUM_AT + way - 5] ^= (uint8_t)(1 << random_below(8));
    return true;
}
