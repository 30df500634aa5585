/*
 * bench.h: what the benchmark measures, for the files of it.
 *
 * The library and the second program have the same calls, so each is a side: pointers to them. A row is one call on one
 * kind of input, made BENCH_CALLS times on inputs that are drawn beforehand and are the same for both sides. Each side
 * has room of its own for what it gives, and a row fails where the two are not the same: nothing can be left out.
 */
#ifndef BENCH_H
#define BENCH_H

#include <stddef.h>
#include <stdint.h>

#include "workerwax.h"

#define BENCH_CALLS 64

typedef uint32_t map_call(uint64_t k, uint64_t m, uint64_t number, uint8_t *rings, size_t rings_length);
typedef uint32_t rank_call(uint64_t k, uint64_t m, const uint8_t *rings, size_t rings_length,
                           uint8_t *answer, size_t answer_length);
typedef uint32_t data_call(uint64_t role, uint64_t s, uint64_t n, uint64_t shaping, uint64_t mark, uint64_t reg, uint64_t z,
                           const uint8_t *from, size_t from_length, uint8_t *to, size_t to_length,
                           uint8_t *answer, size_t answer_length);
typedef uint32_t sequence_call(const uint8_t *from, size_t from_length, uint8_t *to, size_t to_length);
typedef uint32_t numbers_call(uint64_t first, uint64_t second, uint64_t third, uint8_t *to, size_t to_length);

enum { LIBRARY, PLAIN, SIDES };
enum { INFO0, INFO1C, JP, SEQUENCES };

struct side {
    const char *name;
    map_call *map;
    rank_call *rank;
    data_call *write, *read;
    struct {
        sequence_call *read, *write;
        numbers_call *write_numbers; /* where the writer takes its fields as numbers; write is null then */
    } sequence[SEQUENCES];
};

extern const struct side bench_sides[SIDES];

/* A row: draws its inputs, makes its calls on one side, and says whether both sides gave the same. */
struct row {
    const char *call; /* as the header names it */
    const char *input;
    void (*draw)(const struct row *row);
    int (*run)(const struct row *row, int side); /* whether every call was done */
    int (*agree)(const struct row *row);
    uint64_t numbers[WW_SETTINGS_NUMBERS]; /* K and M, or the settings, or which sequence */
};

/* bench_rings.c */
void rings_draw(const struct row *row);
int rings_map(const struct row *row, int side);
int rings_rank(const struct row *row, int side);
int rings_agree(const struct row *row);

/* bench_frames.c */
void frames_draw(const struct row *row);
int frames_write(const struct row *row, int side);
int frames_read(const struct row *row, int side);
int frames_agree(const struct row *row);

/* bench_sequences.c */
void sequences_draw(const struct row *row);
int sequences_read(const struct row *row, int side);
int sequences_write(const struct row *row, int side);
int sequences_agree(const struct row *row);

/* bench_time.c: nanoseconds for one call, of a side each: the median over many rounds. Whether every call was done. */
int bench_time(const struct row *row, double nanoseconds[SIDES]);

#endif
