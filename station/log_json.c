/* log_json.c: the form of a log for programs. The keys of a sample's numbers are those of `zikhrodan show --json`. */
#include "log_json.h"
#include "log_show.h"

#include <stdio.h>

static struct json json;
static const char *const KEYS[QUANTITIES] = {
    "module_temperature", "module_voltage", "rx_power", "laser_tx_bias_current", "transmit_avg_optical_power",
};

static void units(void)
{
    json_key(&json, "units");
    json_list(&json);
    for (unsigned quantity = 0; quantity < QUANTITIES; quantity++) {
        json_begin(&json, '{');
        json_key(&json, "of");
        json_words(&json, KEYS[quantity]);
        json_key(&json, "unit");
        json_words(&json, UNIT_NAMES[QUANTITY_KINDS[quantity]]);
        json_end(&json);
    }
    json_end(&json);
}

static void block_line(const struct log_view *view, uint64_t place)
{
    json_begin(&json, '{');
    json_key(&json, "block");
    json_whole(&json, log_number(&view->log, place));
    json_key(&json, "sample_count");
    json_whole(&json, view->counts.of[place]);
    json_end(&json);
}

void json_log(struct json *out, const struct logfile *log, const struct counts *counts)
{
    json_key(out, "log");
    json_words(out, log->name);
    json_key(out, "room");
    json_whole(out, log->held.blocks);
    json_key(out, "used");
    json_whole(out, log->used);
    json_key(out, "sample_count");
    json_whole(out, counts->samples);
    json_key(out, "damaged_slot");
    json_bool(out, log->damaged);
}

/* Those that the samples shown are in; all, where all are. */
static void blocks(const struct log_view *view)
{
    uint64_t first = 0;

    json_key(&json, "blocks");
    json_list(&json);
    for (uint64_t place = 0; place < view->log.used && !ferror(stdout); first += view->counts.of[place++]) {
        uint64_t from = first > view->from ? first : view->from, end = first + view->counts.of[place];
        if (view->all || (from < end && from < view->until))
            block_line(view, place);
    }
    json_end(&json);
}

static void begin(struct log_view *view)
{
    json_begin(&json, '{');
    json_log(&json, &view->log, &view->counts);
    units();
    blocks(view);
    json_key(&json, "samples");
    json_list(&json);
}

static void number(const struct log_row *row, unsigned monitor)
{
    row->kinds[monitor] == ZIKHRODAN_NOTHING ? json_null(&json) : json_number(&json, row->values[monitor]);
}

/* The same shapes as in `zikhrodan show --json`. */
static void numbers(const struct log_row *row)
{
    for (unsigned quantity = 0; quantity < QUANTITIES; quantity++) {
        bool channels = quantity >= ZIKHRODAN_OF_RX_POWER, object = quantity == ZIKHRODAN_OF_RX_POWER;
        json_key(&json, KEYS[quantity]);
        if (object) {
            json_begin(&json, '{');
            json_key(&json, "values");
        }
        if (channels)
            json_begin(&json, '[');
        for (unsigned m = 0; m < MONITORS; m++)
            if (quantity_of(m) == quantity)
                number(row, m);
        for (unsigned i = 0; i < (unsigned)channels + object; i++)
            json_end(&json);
    }
}

static void row_line(const struct log_row *row)
{
    static const char hex_digits[] = "0123456789ABCDEF";
    char hex[2 * ZIKHRODAN_SAMPLE_LEN + 1] = "";

    for (unsigned i = 0; i < ZIKHRODAN_SAMPLE_LEN; i++) {
        hex[2 * i] = hex_digits[row->sample[i] >> 4];
        hex[2 * i + 1] = hex_digits[row->sample[i] & 15];
    }
    json_begin(&json, '{');
    json_key(&json, "position");
    json_whole(&json, row->position);
    json_key(&json, "block");
    json_whole(&json, row->number);
    json_key(&json, "hex");
    json_words(&json, hex);
    json_key(&json, "status");
    json_begin(&json, '[');
    for (unsigned bit = 0; bit < LINES; bit++)
        if (line_of(row->sample, bit))
            json_words(&json, line_kept(bit));
    json_end(&json);
    numbers(row);
    json_end(&json);
}

static void end(void)
{
    json_end(&json);
    json_end(&json);
}

const struct log_form LOG_JSON = {.begin = begin, .row = row_line, .end = end};
