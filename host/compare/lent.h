/*
 * lent.h: a buffer that is lent to a call, flush against memory that nobody may touch.
 *
 * Each buffer has a page of its own between two pages without access. The bytes lent stand at the end of the page, so
 * that a step past their end is a fault, or at its start, so that a step before it is one. The rest of the page holds a
 * canary byte.
 */
#ifndef LENT_H
#define LENT_H

#include <stddef.h>
#include <stdint.h>

enum placement { AT_END, AT_START, PLACEMENTS };

struct lent {
    uint8_t *page;
    uint8_t *pristine; /* what the page held when it was lent */
    uint8_t *bytes;    /* the part lent, within the page */
    size_t length;     /* of that part */
};

/* Bytes in a page, the most that can be lent. */
size_t lent_page_size(void);

/* Makes the pages. Ends the program where there is no memory. */
void lent_open(struct lent *lent);

/* Sets `length` bytes against the guard: `content`, or canaries where it is null. Everything else of the page is a canary. */
void lent_set(struct lent *lent, enum placement placement, const uint8_t *content, size_t length, uint8_t canary);

/* Whether all of the page, or all of it but the part lent, is as it was when lent. */
int lent_is_untouched(const struct lent *lent);
int lent_is_surrounded(const struct lent *lent);

/* Whether a byte behind, and a byte before, the page really faults. Tried in a child process. */
int lent_guards_hold(struct lent *lent);

#endif
