/* compare.h: the groups of comparisons, a file each. compare.c says what each is for. */
#ifndef COMPARE_H
#define COMPARE_H

#include "calls.h"
#include "sequences.h"

void compare_cases(struct tally *tally);
void compare_settings(struct tally *tally);
void compare_rings(struct tally *tally);
void compare_frames(struct tally *tally);
void compare_damage(struct tally *tally);
void compare_lengths(struct tally *tally);
void compare_ties(struct tally *tally);
void compare_info0(struct tally *tally);
void compare_info1c(struct tally *tally);
void compare_jp(struct tally *tally);

/* The groups that are made for each kind of sequence. */
void compare_sequences(struct tally *tally, const struct kind *kind);
void compare_sequences_damage(struct tally *tally, const struct kind *kind);
void compare_sequences_lengths(struct tally *tally, const struct kind *kind);
void compare_sequences_ties(struct tally *tally, const struct kind *kind);

/* A length that no memory has. A call that is told it must refuse it before it touches a byte. */
#define HUGE_LENGTH ((size_t)1 << 40)

#endif
