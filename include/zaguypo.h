/* Zaguypo from C and C++. Every function is total: it takes any content and any length, ends, and changes no memory but
   that named here. It keeps no state, so that calls on different memory may be made from any number of threads at once.
   A lent array is a pointer and a number of elements; of no elements the pointer may be NULL. A tally's pointer may not. What is
   lent in one call must not overlap.
   Nothing checks these declarations against the Rattle source. The rules are in the manual (docs/MANUAL.md, installed as
   share/doc/zaguypo/MANUAL.md); names in quotes are its sections. */
#ifndef ZAGUYPO_H
#define ZAGUYPO_H

#include <stddef.h>
#include <stdint.h>

/* The first number rises with a change that a host compiled before would not survive, the second with any other change of
   an answer or of the interface. CHANGELOG.md says what each version changed. */
#define ZAGUYPO_VERSION "4.0.0"
#define ZAGUYPO_VERSION_MAJOR 4
#define ZAGUYPO_VERSION_MINOR 0
#define ZAGUYPO_VERSION_PATCH 0

#define ZAGUYPO_MOST_PROCESSES 16
#define ZAGUYPO_RUN_LIMIT 8192                              /* the most words of a run */
#define ZAGUYPO_IMAGE_WORDS(n) (5 * (n) + (n) * (n))        /* the words of an image of n processes, as it is written */
#define ZAGUYPO_IMAGE_BYTES(n) (4 * ZAGUYPO_IMAGE_WORDS(n)) /* and its bytes */
#define ZAGUYPO_INPUT_BYTES 34112                           /* the most bytes of an input */
#define ZAGUYPO_TEXT_BYTES 180260                           /* room for every printed text */
#define ZAGUYPO_ROUND_LIMIT(n) (4 * (n) * (n) * ((n) + 3))     /* the most rounds of n processes; since version 2.1.0 */
#define ZAGUYPO_SILENCE_BOUND(n) (2 * (n) * (n) + 3 * (n) - 3) /* the longest silence, in rounds: see zaguypo_rounds */

#ifdef __cplusplus
extern "C" {
#endif

/* ---- refusals, in the order of checking; 0 is an accepted answer ("Refusals")

     14  bytes in: no multiple of 4, or above 34,112
     1   an image: no words, or the first is neither 80000000 nor 81000000 plus 2 to 16
     2   an image: not 5N words after 80000000 plus N, not 5N + N x N after 81000000 plus N
     3   a word of an image: kind, number (process, k, q or r) or spare bits wrong
     4   the same word: location code, level, set or turn out of range, or a count of a process over itself that is not 0
     5   the same word: level against location
     6   a table: not 2 to 16 rows
     7   a table: a row is unsound
     18  act or turn, since version 4.0.0: not one of the settings
     12  a run: more than 8,192 words
     13  too little memory is lent for the answer
     8   an event word: kind not 1 to 6, or a spare bit set
     9   the same word: no such process
     10  the same word: kind not allowed where the process is
     11  the same word: argument not as listed
     16  the same word, since version 4.0.0: FLICKER of a cell that the settings say is plain
     17  the same word, since version 4.0.0: GO from 23 to 24, where the settings leave turn[level] one writer and it has one
     15  the same word, since version 3.0.0: it would carry a count of passes past 65,535, which only GO at 20 can */

/* ---- settings, since version 4.0.0: two parameters of a step and of a run, act and turn, that say what the shared cells do while
   they are written ("Settings"). Under 0 and 0 every word is answered as in version 3.0.0. Other settings refuse some of the
   words that 0 and 0 accepts, and change no other answer. All 32 bits are compared: any other value meets 18. */

#define ZAGUYPO_ACT_SAFE 0        /* act may be read as anything while it is written: FLICKER is allowed at 20 and at 40 */
#define ZAGUYPO_ACT_PLAIN 1       /* a write of act shows nothing before it is done: FLICKER at 20 and at 40 meets 16 */
#define ZAGUYPO_TURN_WRITE_SAFE 0 /* turn[k] may be read as anything while processes write it: FLICKER is allowed at 24 */
#define ZAGUYPO_TURN_ONE_WRITER 1 /* so it may, but one writes at a time: GO from 23 to 24 meets 17 while another process at 24 has the
                                     same level; FLICKER is allowed at 24 */
#define ZAGUYPO_TURN_PLAIN 2      /* a write of turn[k] shows nothing before it is done: FLICKER at 24 meets 16 */

/* ---- inputs: bytes that are words of 4 bytes, lowest byte first, an image and then event words ("Bytes and inputs", "The call
   on bytes", "The printed text") */

/* The run that an input holds, under the settings. Answers 256 times the number of words taken, plus the refusal or 0. After 14,
   1 to 5, 18, 12 and 13 (image_len is below ZAGUYPO_IMAGE_BYTES(N)) the count is 0 and the lent bytes are as given. Otherwise,
   also where a word stopped the run with 8 to 11, 16, 17 or 15, the image of the table after the words taken fills the first
   ZAGUYPO_IMAGE_BYTES(N) lent bytes, and no others change. That image is headed 81000000 plus N, whichever header the input has. */
uint64_t zaguypo_run(const uint8_t *input, size_t input_len, uint8_t *image, size_t image_len, uint32_t act, uint32_t turn);

/* The text that the printing program, zaguypo-replay, prints for an input; its run is under 0 and 0. Answers the length of the
   text, which is at most ZAGUYPO_TEXT_BYTES. Where text_len is at least this length, the text fills the first lent bytes, with no
   zero after it, and no others change; where text_len is less, every lent byte is as given. */
size_t zaguypo_print(const uint8_t *input, size_t input_len, char *text, size_t text_len);

/* ---- tables of rows ("Tables", "Steps", "Ahead sets", "Passes", "Runs", "Census", "Rounds") */

/* One process; process q is row q. The sets have bit q for process q. Row k holds the cell turn[k]; row 0 holds 0 there.
   passes[r] of row q, since version 3.0.0, counts how often q entered while r competed, in the competing period that r is in: GO
   at 20 of q adds one for each r at 21 to 30, GO at 30 of r clears passes[r] of every row. passes[q] of row q is 0, and so is
   passes[r] for every r that is no process of the table; otherwise the row is unsound. */
struct zaguypo_row {
    uint16_t location, act, bb, level, est, lis, ahead, turn;
    uint16_t passes[16];
};

/* The lent rows become the fresh table of that many processes, everything 0 but the locations, which are 10. Answers 0; or 6
   where there are not 2 to 16 rows, and no row changes. */
uint16_t zaguypo_fresh(struct zaguypo_row *rows, size_t size);

/* The shared cell that a word used, since version 2.0.0: act of a process or turn[k], read or written. Where it used none, and
   where it was refused, all three are 0. A LOOK at process q reads act of q; FLICKER and GO at 20 and at 40 write act of their
   process, at 24 turn[level]; GO at 23 reads turn[level] where est has at least level members and bb is not 0; no other word uses
   one. The level is that before the step ("Shared cells"). */
struct zaguypo_cell {
    uint16_t access;   /* 0 none, 1 read, 2 written */
    uint16_t variable; /* 0 none, 1 act, 2 turn */
    uint16_t index;    /* the process of act, the k of turn[k] */
};

/* The answer of a step: the refusal or 0, and the cell that the word used. Later versions may add fields. */
struct zaguypo_stepped {
    uint16_t refusal;
    struct zaguypo_cell cell;
};

/* One step by one word under the settings. The refusal is 0 and the rows are moved; or it is 6, 7, 18, 8 to 11, 16, 17 or 15, no
   row changes, and the cell is none. */
struct zaguypo_stepped zaguypo_step(struct zaguypo_row *rows, size_t size, uint32_t word, uint32_t act, uint32_t turn);

/* What went along with a run. */
struct zaguypo_tally {
    uint32_t words, comes, arrivals;
};

/* The answer of a run: how many words were taken, the refusal or 0, and the cell of the last word taken, which is none where none
   was. The struct ends in two bytes of padding: compare fields, not bytes. */
struct zaguypo_ran {
    uint32_t taken, refusal;
    struct zaguypo_cell cell;
};

/* A run under the settings: the words in order, up to the first that is refused. Refusals 6, 7, then 18, then 12 take no word and
   change no row. The tally, whatever it held, is that of this run: zero after 6, 7, 18 and 12. */
struct zaguypo_ran zaguypo_run_rows(struct zaguypo_row *rows, size_t size, const uint32_t *words, size_t count,
                                    struct zaguypo_tally *tally, uint32_t act, uint32_t turn);

/* The census: the figures of a table, for each k from 0 to its number of processes, 0 past that. Where the table is refused
   there are no figures: all are 0. */
struct zaguypo_figures {
    uint16_t refusal;   /* 0, 6 or 7 */
    uint16_t critical;  /* processes at 30 */
    uint16_t waiting;   /* processes at 21 to 24, since version 1.2.0 */
    uint16_t below[17]; /* at k: processes at 21 to 30 with a level under k */
    uint16_t held[17];  /* at k: those, and those at 21 to 30, but not at 24, with fewer than k members in ahead */
};

/* The census of a table. Its waiting figure has had two readings: since version 1.2.0 of the library it counts the processes
   at 21 to 24, which have completed the first write of their entry; up to version 1.1.0 it counted those at 20 to 24. Today
   waiting and critical add up to below[size] for every accepted table. Figures where they add up to more are of the old reading:
   the difference is the number of processes at 20. Under either reading below[size] - critical is what waiting counts today. */
struct zaguypo_figures zaguypo_census(const struct zaguypo_row *rows, size_t size);

/* The answer of rounds, since version 2.1.0: the refusal or 0, the rounds done, and whether a process is at 30 in the rows as
   left. Where the table is refused with 6 or 7, the other two are 0. */
struct zaguypo_rounded {
    uint16_t refusal;  /* 0, 6, 7 or, since version 3.0.0, 15 */
    uint16_t rounds;   /* done whole; at most ZAGUYPO_ROUND_LIMIT(size), 19,456 for sixteen processes */
    uint16_t occupied; /* 1 where some process is at 30, else 0 */
};

/* Rounds, since version 2.1.0; their words are stepped under 0 and 0. A round gives each process in number order one
   word, and each word goes to the table that the word before left: STAY at 10; at 22 with lis not empty LOOK at the
   lowest member of lis; GO otherwise. Rounds are done in the lent rows until some process is at 30, which is asked before
   the first and after each whole one, or ZAGUYPO_ROUND_LIMIT(size), the limit, are done: for sixteen processes 311,296
   words. With nobody at 20 to 24 none is begun. Where none is begun, and after 6 and 7, no row changes. Before a word
   that the step refuses with 15 the rounds end with 15: the round that it breaks is not counted, and the words before it
   in that round are kept; only the first can be broken, so rounds is 0 then. From a table that words made from a fresh
   one, with nobody at 30 and somebody at 20 to 24, and where 15 is not met, at most ZAGUYPO_SILENCE_BOUND(size) are done,
   and occupied is 1; for sixteen processes that is 557. Sound tables that no words lead to may use up the limit, with
   occupied 0 ("Rounds"). */
struct zaguypo_rounded zaguypo_rounds(struct zaguypo_row *rows, size_t size);

/* ---- images: a table as 5N + N x N words, headed 81000000 plus N, which they are since version 3.0.0; or bare as 5N words,
   headed 80000000 plus N, which versions before wrote: these are read too, with counts of passes that are 0 ("Images") */

/* The answer to an image: the refusal or 0, the place of the word that it is about, and the number of processes. Place and size
   are 0 where they say nothing: the place of an accepted image and of 13, the size of a refused one. */
struct zaguypo_reading {
    uint16_t refusal, place, size;
};

/* Reads an image of either form. The first rows, as many as it has processes, become its table, and no others change; or the
   refusal is 1 to 5, or 13 where fewer rows are lent, and no row changes. 16 lent rows are room for every image. */
struct zaguypo_reading zaguypo_read(const uint32_t *words, size_t count, struct zaguypo_row *rows, size_t size);

/* Writes the image of a table, headed 81000000 plus N, into the first ZAGUYPO_IMAGE_WORDS(N) lent words, and no others. Answers
   0; or 6, 7, or 13 where fewer words are lent, and no word changes. */
uint16_t zaguypo_write(const struct zaguypo_row *rows, size_t size, uint32_t *words, size_t count);

/* ---- event words, without a table ("Event words"). The kinds are 1 STAY, 2 COME, 3 FLICKER, 4 GO, 5 LOOK and, since version
   1.1.0, 6 CANCEL, which before was refused with 8 */

/* The parts of a word; all 0 where it is refused. */
struct zaguypo_parts {
    uint16_t refusal, kind, process, argument;
};

/* Takes a word apart: its parts; or 8, then 9 for a process over 15. */
struct zaguypo_parts zaguypo_apart(uint32_t word);

/* A word; 0 where it is refused. */
struct zaguypo_word {
    uint32_t refusal, word;
};

/* Puts a word together: the word; or 8 for a kind outside 1 to 6, then 9 for a process over 15, then 11 for an argument over
   255. */
struct zaguypo_word zaguypo_together(uint32_t kind, uint32_t process, uint32_t argument);

#ifdef __cplusplus
}
#endif

#endif
