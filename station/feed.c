/* feed.c: see feed.h. */
#include "feed.h"
#include "ask.h"
#include "logcalls.h"
#include "say.h"
#include "signals.h"
#include "why.h"

#include <inttypes.h>
#include <stdio.h>
#include <string.h>
#include <time.h>

/* How many rows were taken, once a second; not of an input that is done at once. */
static void progress(uint64_t taken)
{
    static time_t shown;
    struct timespec now;

    clock_gettime(CLOCK_MONOTONIC_COARSE, &now);
    if (shown != 0 && now.tv_sec != shown)
        pass_by(taken, "rows");
    shown = now.tv_sec;
}

/* Hands a row to the module and then to the log. Gives the refusal, and whose it is. */
static uint32_t hand(struct feed *feed, const uint8_t *row, size_t len, const char **whose)
{
    uint32_t answer = 0;

    if (feed->name) {
        *whose = feed->name;
        answer = feed->kind->sample(feed->state.bytes, feed->state.len, row, len);
        if (zikhrodan_refusal_of(answer) != ZIKHRODAN_ACCEPTED)
            return zikhrodan_refusal_of(answer);
    }
    if (feed->log.name) {
        *whose = feed->log.name;
        uint32_t refusal = log_add(&feed->log, row, len);
        if (refusal != ZIKHRODAN_ACCEPTED)
            return refusal;
    }
    feed->counts[0] = zikhrodan_operator_count(answer);
    feed->counts[1] = zikhrodan_recorder_count(answer);
    return ZIKHRODAN_ACCEPTED;
}

/* Feeds one row; where it is refused, neither has it. Gives the exit status, with the refusal said. */
static int feed_row(struct feed *feed, const uint8_t *row, size_t len)
{
    struct state before = feed->state;
    const char *whose = NULL;
    uint32_t refusal = hand(feed, row, len, &whose);

    if (refusal != ZIKHRODAN_ACCEPTED)
        feed->state = before;
    if (refusal == ZIKHRODAN_SAMPLE_SIZE)
        return refused(refusal, feed->kind->words(refusal), "%s: row %" PRIu64, feed->rows.name, feed->rows.row);
    if (refusal != ZIKHRODAN_ACCEPTED)
        return refused(refusal, whose == feed->log.name ? why_change(&feed->log, refusal) : why_sample(&feed->state, refusal),
                       "%s: at row %" PRIu64 " of %s", whose, feed->rows.row, feed->rows.name);
    feed->taken++;
    progress(feed->taken);
    return feed->tell ? feed->tell(feed, &before) : DONE;
}

static int open_both(struct feed *feed)
{
    int status = feed->name ? state_open(&feed->state, feed->name, feed->kind, IS_ERROR) : DONE;

    if (status != DONE || !feed->log.name || (status = log_begin(&feed->log)) == DONE)
        return status;
    if (feed->name)
        state_close(&feed->state);
    return status;
}

/* The log first, of `rows` more rows: it is never behind the state. */
static int save_both(struct feed *feed, uint64_t rows)
{
    sigset_t before;

    hold_signals(&before);
    int status = feed->log.name ? log_commit(&feed->log) : DONE;
    if (status == DONE && feed->name) {
        status = state_save(&feed->state);
        if (status != DONE && feed->log.name)
            fail("%s has %" PRIu64 " row%s that the state has %s", feed->log.name, rows, plural(rows),
                 feed->state.saved ? "too" : "not");
    }
    let_signals(&before);
    return status;
}

static void close_both(struct feed *feed)
{
    if (feed->log.name)
        log_end(&feed->log);
    if (feed->name)
        state_close(&feed->state);
}

/* Feeds the row at hand and those of its file that are there without waiting; then saves. */
static int feed_batch(struct feed *feed, const uint8_t *row, size_t len)
{
    uint64_t had = feed->taken;
    unsigned counts[2] = {feed->counts[0], feed->counts[1]};
    int status = open_both(feed);
    if (status != DONE)
        return status;

    while ((status = feed_row(feed, row, len)) == DONE && rows_ready(&feed->rows))
        rows_next(&feed->rows, &row, &len);
    int saved = feed->taken > had ? save_both(feed, feed->taken - had) : DONE;
    close_both(feed);
    if (saved == DONE)
        return status;
    feed->taken = had; /* what is not saved is not taken */
    memcpy(feed->counts, counts, sizeof counts);
    return saved;
}

/* Which module it is, the counts of a state that is fed nothing, and whether the log can be had. */
static int look(struct feed *feed)
{
    int status = feed->name ? state_peek(&feed->state, feed->name, NULL) : DONE;

    feed->kind = feed->name ? feed->state.kind : &FOUR;
    for (unsigned i = 0; i < 2 && feed->name && status == DONE; i++) {
        struct port_view view = ask_port(&feed->state, ZIKHRODAN_OPERATOR + i);
        if (view.refusal != ZIKHRODAN_ACCEPTED)
            status = refused(view.refusal, why_port(feed->kind, view.refusal, ZIKHRODAN_OPERATOR + i), "%s", feed->name);
        feed->counts[i] = view.count;
    }
    if (status == DONE && feed->log.name && feed->kind->sample_len != FOUR.sample_len)
        status = fail("%s: a log keeps samples of %zu bytes, and an eight-channel module's are %zu", feed->name, FOUR.sample_len,
                      feed->kind->sample_len);
    if (status == DONE && feed->log.name && (status = log_begin(&feed->log)) == DONE)
        log_end(&feed->log);
    return status;
}

static void summary(const struct feed *feed)
{
    printf("%" PRIu64 " row%s taken\n", feed->taken, plural(feed->taken));
    for (unsigned i = 0; i < 2 && feed->name; i++) {
        say_count(feed->kind, ZIKHRODAN_OPERATOR + i, feed->counts[i]);
        putchar('\n');
    }
    if (feed->log.name)
        say_used(&feed->log);
}

int feed_all(struct feed *feed, char **names, int count)
{
    const uint8_t *row;
    size_t len;
    int more = 1, status = look(feed);

    if (status == DONE)
        status = rows_begin(&feed->rows, names, count, feed->kind->sample_len, feed->raw);
    while (status == DONE && more > 0 && (more = rows_next(&feed->rows, &row, &len)) > 0)
        status = feed_batch(feed, row, len);
    wipe();
    rows_end(&feed->rows);
    if (status == DONE && more < 0)
        status = USAGE_OR_FILE;
    if (status == DONE || feed->taken > 0)
        summary(feed);
    log_close(&feed->log);
    return status;
}
