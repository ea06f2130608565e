/* Tables for the other parts and for rows.c: fresh ones, any sound one, and rows that make a table unsound. And the example. */
#include "zaguypo.h"

enum { MOST = ZAGUYPO_MOST_PROCESSES };

/* the words of the example, which bring process 0 of two idle ones to 30 */
static const uint32_t SEVEN[7] = {0x20000000, 0x40000000, 0x40000000, 0x50000001, 0x40000000, 0x40000000, 0x40000000};

static const struct zaguypo_row IDLE = {10, 0, 0, 0, 0, 0, 0, 0, {0}};
static const uint16_t LOCATIONS[8] = {10, 20, 21, 22, 23, 24, 30, 40};

/* idle rows, any number of them */
static void idle_rows(struct zaguypo_row *rows, size_t count) {
    for (size_t q = 0; q < count; q++) rows[q] = IDLE;
}

static uint32_t draw(uint32_t below) {
    static uint32_t x = 2463534242u;
    x ^= x << 13, x ^= x >> 17, x ^= x << 5;
    return x % below;
}

/* a number below `below` as a cell */
static uint16_t cell(uint32_t below) { return (uint16_t)draw(below); }

/* any counts of process q over the others below n, one in four of them the most that there is */
static void sound_passes(struct zaguypo_row *row, uint32_t q, uint32_t n) {
    for (uint32_t r = 0; r < n; r++)
        if (r != q) row->passes[r] = draw(4) ? cell(65536) : 65535;
}

/* any sound table of n processes */
static void sound_rows(struct zaguypo_row *rows, uint32_t n) {
    for (uint32_t q = 0; q < n; q++) {
        uint16_t est = cell(1u << n), lis = cell(1u << n), ahead = cell(1u << n);
        struct zaguypo_row r = {LOCATIONS[draw(8)], cell(2), cell(2), cell(n), est, lis, ahead, cell(n), {0}};
        if (q == 0) r.turn = 0;
        if (r.location >= 22 && r.location <= 24 && r.level == 0) r.level = 1;
        if (r.location == 30) r.level = 0;
        sound_passes(&r, q, n);
        rows[q] = r;
    }
}

/* Makes row q of a table of n processes unsound, in one of SPOILS ways. Of 16 processes every set is sound, and every count but
   that over itself; the ways from 18 on spoil the turn there, but for that count. */
enum { SPOILS = 25 };
static void spoil(struct zaguypo_row *rows, size_t q, uint32_t n, int way) {
    static const uint16_t wrong[8] = {0, 9, 11, 25, 31, 41, 266, 65535};
    struct zaguypo_row r = IDLE;
    uint16_t past = (uint16_t)(1u << n);
    switch (way) {
    case 8: r.act = 2; break;
    case 9: r.bb = 2; break;
    case 10: r.level = (uint16_t)n; break;
    case 11: r.level = 256; break;
    case 12: r.turn = q == 0 ? 1 : (uint16_t)n; break;
    case 13: r.turn = 256; break;
    case 14: r.location = 22; break;
    case 15: r.location = 23; break;
    case 16: r.location = 24; break;
    case 17: r.location = 30, r.level = 1; break;
    case 18: r.est = past; break;
    case 19: r.lis = past; break;
    case 20: r.ahead = past; break;
    case 21: r.passes[n % 16] = 1; break;
    case 22: r.passes[15] = 256; break;
    case 23: r.passes[q] = 1; break;
    case 24: r.passes[q] = 65535; break;
    default: r.location = wrong[way];
    }
    if (way >= 18 && way <= 22 && n == 16) r.turn = 16;
    rows[q] = r;
}
