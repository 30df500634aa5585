/*
 * calls.h: one call as data, made by the library and by the second program, and compared.
 *
 * A comparison lends both programs buffers of the same contents, each between guard pages, makes the call in both
 * placements, and demands the same number and the same contents afterwards. A refusal must leave every lent byte as it
 * was. What was only lent for reading, and what lies around the buffers, must be as it was in any case. Where one of
 * these fails the program prints the call in full and ends with status 1.
 */
#ifndef CALLS_H
#define CALLS_H

#include <stddef.h>
#include <stdint.h>

#include "workerwax.h"

enum entry {
#define CALL(NAME, name, numbers, read, written, refusals) NAME,
#include "calls.def"
    ENTRIES
};

/* Only their sizes are used: the most numbers and the most slices that a call takes, and one. */
union numbers_of_calls {
#define CALL(NAME, name, numbers, read, written, refusals) char of_##name[(numbers) + 1];
#include "calls.def"
};

union slices_of_calls {
#define CALL(NAME, name, numbers, read, written, refusals) char of_##name[(read) + (written) + 1];
#include "calls.def"
};

enum { MOST_NUMBERS = sizeof(union numbers_of_calls) - 1, MOST_SLICES = sizeof(union slices_of_calls) - 1 };

/*
 * The places of the slices of writers and readers, of sequences too where they have two, and of the ranker. The others have
 * one slice, at 0.
 */
enum { FROM = 0, TO = 1, ANSWER = 2, RANK_ANSWER = 1 };

struct slice {
    const uint8_t *content; /* null: canaries */
    size_t there;           /* bytes that really are there */
    size_t stated;          /* the length that the call is told */
};

struct call {
    enum entry entry;
    uint64_t number[MOST_NUMBERS];
    struct slice slice[MOST_SLICES];
};

/* What a comparison expects beside agreement: a number that comes back, or that nothing is known beforehand. */
#define NOT_KNOWN UINT32_MAX

struct tally {
    const char *group;
    uint64_t made, stated; /* comparisons made, and the least that the group states */
};

void calls_open(void);

/* Compares, counts for the group, and gives the number that came back. */
uint32_t compare(struct tally *tally, const struct call *call, uint32_t expected);

/* After a comparison: what a slice holds, and the last one, which is lent for writing. Good until the next one. */
const uint8_t *compared(size_t slice);
const uint8_t *given(void);

/* Demands a fact that the last comparison bears on. Where it fails the call is printed and the program ends. */
void demand(int fact, const char *what);

/* Prints, for each entry, how often each number came back. False where one that the entry can give never came. */
int calls_all_met(void);

/* A slice of exactly these bytes, and one of canaries. */
struct slice slice_of(const uint8_t *content, size_t length);
struct slice room(size_t length);

#endif
