/* groups.h: the groups of cases: the module's, in the order in which they are run, the eight-channel module's and the log's. */
#ifndef GROUPS_H
#define GROUPS_H

void group_refusals(void);      /* every set of refusals at once */
void group_lengths(void);       /* every length of what is lent, around and far from its limit */
void group_vast(void);          /* lengths of 2^32 and more */
void group_ends(void);          /* 64-bit numbers at the ends of what 7 to 64 bits hold */
void group_identity(void);
void group_reset(void);
void group_select(void);        /* writes of the page number */
void group_sample(void);
void group_write(void);
void group_limits(void);
void group_records(void);       /* every byte of a record, sound or not, by every call */
void group_monitors(void);
void group_read(void);
void group_starts(void);        /* the other placements: right after unreadable memory, */
void group_odd(void);           /* and at odd addresses */
void group_histories(void);     /* random calls */
void group_demand_3(void);      /* pairs of runs, on the library alone */

void group_eight_refusals(void);    /* the eight-channel module's: every set of refusals at once */
void group_eight_lengths(void);     /* lengths, and numbers at their ends */
void group_eight_read(void);        /* every address by every count */
void group_eight_write(void);       /* the same, and every value of every mask byte */
void group_eight_records(void);     /* every byte of a state, sound or not, by every call */
void group_eight_sample(void);      /* each condition alone, and every value over every value before */
void group_eight_histories(void);   /* random calls */
void group_eight_demand_3(void);    /* pairs of runs, on the library alone */

void group_log_refusals(void);  /* every set of refusals at once */
void group_log_blocks(void);    /* logs that grow, counts, numbers, sums */
void group_log_lengths(void);   /* lengths, used numbers and positions, at their ends too */
void group_log_damage(void);    /* every byte changed */
void group_log_summaries(void); /* endings of a block, and the summaries that are written */
void group_log_first(void);     /* the question: every bit at every position, and logs that aren't sound */
void group_log_histories(void); /* random calls */
void group_log_far(void);       /* a log of more than 2^24 bytes */
void group_log_first_far(void); /* one of more than 2^24 samples */

#endif
