/* The loops that the proved calls are timed against: what a C programmer writes for a whole sheet. */
#include <stddef.h>
#include <stdint.h>
#include <string.h>

/* How the places along a side that is written come from those along a side that is read. The two mirrors stand apart,
   since a middle between two samples falls to another one if it is mirrored first. */
typedef struct { uint32_t parts, side, before, after; } course;

/* One row of a sheet, packed or unpacked: the widths of the two pictures, the corners of the two rectangles, and the two
   courses. crossed: a line that is written comes from a column. */
typedef struct {
    uint32_t from_wide, from_high, to_wide, from_x, from_y, to_x, to_y;
    course across, down;
    uint32_t crossed;
} plan;

static inline uint32_t step(course c, uint32_t i) {
    uint64_t cell = c.before ? c.parts - 1 - i : i;
    uint32_t sample = (2 * cell + 1) * c.side / (2 * (uint64_t)c.parts);
    return c.after ? c.side - 1 - sample : sample;
}

/* Where blocks of 8 by 8 keep a place. */
static inline size_t tile(size_t wide, size_t x, size_t y) {
    return (y / 8 * ((wide + 7) / 8) + x / 8) * 64 + y % 8 * 8 + x % 8;
}

/* Columns that are carried at a time, so that one table serves all their lines. Few where a line comes from a column, so
   that the next line finds its samples in the cache. The proved code has the same two widths. */
enum { LONG = 8192, SHORT = 128 };

static inline uint32_t strip(const plan *p, uint32_t start) {
    uint32_t most = p->crossed ? SHORT : LONG, left = p->across.parts - start;
    return left < most ? left : most;
}

static inline void fill(const plan *p, uint32_t start, uint32_t n, uint32_t *table) {
    for (uint32_t i = 0; i < n; i++) table[i] = step(p->across, start + i);
}

/* two divisions for each sample, as it is written; the compiler takes the one for the line out of the inner loop */
static void divide(const uint16_t *src, uint16_t *dst, const plan *p) {
    for (uint32_t j = 0; j < p->down.parts; j++)
        for (uint32_t i = 0; i < p->across.parts; i++) {
            uint32_t a = step(p->across, i), d = step(p->down, j);
            size_t x = p->from_x + (p->crossed ? d : a), y = p->from_y + (p->crossed ? a : d);
            dst[(size_t)(p->to_y + j) * p->to_wide + p->to_x + i] = src[y * p->from_wide + x];
        }
}

/* a table of the places along a line for each strip of columns, and one division for each line of a strip */
static void strips(const uint16_t *restrict src, uint16_t *restrict dst, const plan *p) {
    uint32_t table[LONG], n;
    for (uint32_t start = 0; start < p->across.parts; start += n) {
        n = strip(p, start);
        fill(p, start, n, table);
        for (uint32_t j = 0; j < p->down.parts; j++) {
            uint32_t d = step(p->down, j);
            uint16_t *restrict out = dst + (size_t)(p->to_y + j) * p->to_wide + p->to_x + start;
            if (p->crossed) {
                const uint16_t *restrict in = src + (size_t)p->from_y * p->from_wide + p->from_x + d;
                for (uint32_t i = 0; i < n; i++) out[i] = in[(size_t)table[i] * p->from_wide];
            } else {
                const uint16_t *restrict in = src + (size_t)(p->from_y + d) * p->from_wide + p->from_x;
                for (uint32_t i = 0; i < n; i++) out[i] = in[table[i]];
            }
        }
    }
}

/* the same from rows to blocks of 8 by 8 */
static void to_tiles(const uint16_t *restrict src, uint16_t *restrict dst, const plan *p) {
    uint32_t table[LONG], n;
    for (uint32_t start = 0; start < p->across.parts; start += n) {
        n = strip(p, start);
        fill(p, start, n, table);
        for (uint32_t j = 0; j < p->down.parts; j++) {
            uint32_t d = step(p->down, j);
            for (uint32_t i = 0; i < n; i++) {
                size_t x = p->from_x + (p->crossed ? d : table[i]), y = p->from_y + (p->crossed ? table[i] : d);
                dst[tile(p->to_wide, p->to_x + start + i, p->to_y + j)] = src[y * p->from_wide + x];
            }
        }
    }
}

/* the same from blocks of 8 by 8 to rows */
static void from_tiles(const uint16_t *restrict src, uint16_t *restrict dst, const plan *p) {
    uint32_t table[LONG], n;
    for (uint32_t start = 0; start < p->across.parts; start += n) {
        n = strip(p, start);
        fill(p, start, n, table);
        for (uint32_t j = 0; j < p->down.parts; j++) {
            uint32_t d = step(p->down, j);
            uint16_t *restrict out = dst + (size_t)(p->to_y + j) * p->to_wide + p->to_x + start;
            for (uint32_t i = 0; i < n; i++) {
                size_t x = p->from_x + (p->crossed ? d : table[i]), y = p->from_y + (p->crossed ? table[i] : d);
                out[i] = src[tile(p->from_wide, x, y)];
            }
        }
    }
}

/* The limit of the machine: as many samples written to the same places, copied line after line from a run that is read on
   and on, which has to hold one line at least. Only at one whole picture of the same size is this what packing gives. */
static void copy(const uint16_t *src, uint16_t *dst, const plan *p) {
    size_t n = p->across.parts, all = (size_t)p->from_wide * p->from_high, at = 0;
    for (uint32_t j = 0; j < p->down.parts; j++, at += n) {
        if (at + n > all) at = 0;
        memcpy(dst + (size_t)(p->to_y + j) * p->to_wide + p->to_x, src + at, n * sizeof *dst);
    }
}

/* A whole sheet: the rows from the last to the first, so that the lowest-numbered row that covers a place comes last. */
#define SHEET(name, row)                                                                  \
    void name(const uint16_t *src, uint16_t *dst, const plan *plans, size_t rows) {       \
        while (rows-- > 0) row(src, dst, &plans[rows]);                                   \
    }

SHEET(c_divide, divide)
SHEET(c_strips, strips)
SHEET(c_to_tiles, to_tiles)
SHEET(c_from_tiles, from_tiles)
SHEET(c_copy, copy)
