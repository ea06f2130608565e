/* The layout that the Rattle side has: sizes and offsets of every struct of the header, held to at compile time, in C and C++;
   and the header's numbers. */
#ifndef LAYOUT_H
#define LAYOUT_H
#include "zaguypo.h"

#include <assert.h>
#include <stddef.h>

#define HAS_SIZE(type, bytes) static_assert(sizeof(struct type) == (bytes), "size of " #type)
#define HAS_AT(type, field, at, bytes) \
    static_assert(offsetof(struct type, field) == (at) && sizeof(((struct type *)0)->field) == (bytes), #type "." #field)

HAS_SIZE(zaguypo_row, 48);
HAS_AT(zaguypo_row, location, 0, 2);
HAS_AT(zaguypo_row, act, 2, 2);
HAS_AT(zaguypo_row, bb, 4, 2);
HAS_AT(zaguypo_row, level, 6, 2);
HAS_AT(zaguypo_row, est, 8, 2);
HAS_AT(zaguypo_row, lis, 10, 2);
HAS_AT(zaguypo_row, ahead, 12, 2);
HAS_AT(zaguypo_row, turn, 14, 2);
HAS_AT(zaguypo_row, passes, 16, 32);
HAS_AT(zaguypo_row, passes[15], 46, 2);

HAS_SIZE(zaguypo_cell, 6);
HAS_AT(zaguypo_cell, access, 0, 2);
HAS_AT(zaguypo_cell, variable, 2, 2);
HAS_AT(zaguypo_cell, index, 4, 2);

HAS_SIZE(zaguypo_stepped, 8);
HAS_AT(zaguypo_stepped, refusal, 0, 2);
HAS_AT(zaguypo_stepped, cell, 2, 6);

HAS_SIZE(zaguypo_tally, 12);
HAS_AT(zaguypo_tally, words, 0, 4);
HAS_AT(zaguypo_tally, comes, 4, 4);
HAS_AT(zaguypo_tally, arrivals, 8, 4);

/* two bytes of padding stand at the end */
HAS_SIZE(zaguypo_ran, 16);
HAS_AT(zaguypo_ran, taken, 0, 4);
HAS_AT(zaguypo_ran, refusal, 4, 4);
HAS_AT(zaguypo_ran, cell, 8, 6);

HAS_SIZE(zaguypo_figures, 74);
HAS_AT(zaguypo_figures, refusal, 0, 2);
HAS_AT(zaguypo_figures, critical, 2, 2);
HAS_AT(zaguypo_figures, waiting, 4, 2);
HAS_AT(zaguypo_figures, below, 6, 34);
HAS_AT(zaguypo_figures, held, 40, 34);

HAS_SIZE(zaguypo_rounded, 6);
HAS_AT(zaguypo_rounded, refusal, 0, 2);
HAS_AT(zaguypo_rounded, rounds, 2, 2);
HAS_AT(zaguypo_rounded, occupied, 4, 2);

HAS_SIZE(zaguypo_reading, 6);
HAS_AT(zaguypo_reading, refusal, 0, 2);
HAS_AT(zaguypo_reading, place, 2, 2);
HAS_AT(zaguypo_reading, size, 4, 2);

HAS_SIZE(zaguypo_parts, 8);
HAS_AT(zaguypo_parts, refusal, 0, 2);
HAS_AT(zaguypo_parts, kind, 2, 2);
HAS_AT(zaguypo_parts, process, 4, 2);
HAS_AT(zaguypo_parts, argument, 6, 2);

HAS_SIZE(zaguypo_word, 8);
HAS_AT(zaguypo_word, refusal, 0, 4);
HAS_AT(zaguypo_word, word, 4, 4);

static_assert(ZAGUYPO_MOST_PROCESSES == 16 && ZAGUYPO_RUN_LIMIT == 8192, "limits");
static_assert(ZAGUYPO_ACT_SAFE == 0 && ZAGUYPO_ACT_PLAIN == 1, "settings of act");
static_assert(ZAGUYPO_TURN_WRITE_SAFE == 0 && ZAGUYPO_TURN_ONE_WRITER == 1 && ZAGUYPO_TURN_PLAIN == 2, "settings of turn");
static_assert(ZAGUYPO_ROUND_LIMIT(2) == 80 && ZAGUYPO_ROUND_LIMIT(16) == 19456, "limit of rounds");
static_assert(ZAGUYPO_SILENCE_BOUND(2) == 11 && ZAGUYPO_SILENCE_BOUND(16) == 557, "bound on the silence");
static_assert(ZAGUYPO_INPUT_BYTES == 34112, "bytes of an input");
static_assert(ZAGUYPO_TEXT_BYTES == 180260, "bytes of a text");
static_assert(ZAGUYPO_IMAGE_WORDS(2) == 14 && ZAGUYPO_IMAGE_WORDS(16) == 336, "words of an image");
static_assert(ZAGUYPO_IMAGE_BYTES(2) == 56 && ZAGUYPO_IMAGE_BYTES(16) == 1344, "bytes of an image");

#undef HAS_SIZE
#undef HAS_AT
#endif
