/*
 * compare_sequences.c: sequences of any kind written and read: those whose answers are written out, every field over its
 * range and past it, and sequences drawn at random.
 */
#include <string.h>

#include "compare.h"
#include "random.h"
#include "sequences.h"

#define BASES 8
#define SMALL_RANGE 16 /* of such fields every number is tried in every way, of others those at the ends and some */
#define TRIES 4000

static void worked_sequences(struct tally *tally, const struct kind *kind)
{
    size_t i, k;
    for (i = 0; i < kind->worked_count; i++) {
        const struct worked *worked = &kind->worked[i];
        struct sequence sequence = {kind, {0}, {0}};
        for (k = 0; k < kind->bits; k++) {
            sequence.bits[k] = (uint8_t)(worked->sequence[k] - '0');
        }
        for (k = 0; 4 * k < kind->answer_bytes; k++) {
            ww_put_number(sequence.answer, k, (uint32_t)worked->numbers[k]);
        }
        demand(strlen(worked->sequence) == kind->bits, "a worked sequence is not as long as one of its kind");
        if (worked->due == WW_DONE) {
            there_and_back(tally, &sequence, WW_DONE);
        } else {
            const struct call read = read_sequence_call(&sequence);
            compare(tally, &read, worked->due);
        }
    }
}

/* All that the bits of each field can hold, the other fields drawn anew for each. */
static void fields_over_their_bits(struct tally *tally, const struct kind *kind)
{
    struct sequence sequence;
    size_t place;
    int64_t number;
    for (place = 0; place < all_fields(kind); place++) {
        const struct field *field = &kind->field[place];
        for (number = field->lowest; number < field->lowest + field_holds(field); number++) {
            random_sequence(&sequence, kind);
            sequence_set(&sequence, place, number);
            there_and_back(tally, &sequence, number > field->highest ? WW_BAD_FIELD : WW_DONE);
        }
    }
}

/* What was put in place of one field is to be written. What is done is read back. */
static void try_put(struct tally *tally, const struct sequence *changed, size_t place, uint64_t number, int permitted)
{
    struct call write = write_sequence_call(changed);
    if (takes_numbers(changed->kind)) {
        write.number[place] = number; /* as wide as it is */
    }
    if (compare(tally, &write, permitted ? WW_DONE : WW_BAD_FIELD) == WW_DONE) {
        struct sequence back = *changed;
        const struct call read = read_sequence_call(&back);
        memcpy(back.bits, given(), changed->kind->bits);
        compare(tally, &read, WW_DONE);
        demand(memcmp(given(), changed->answer, changed->kind->fields_bytes) == 0,
               "the fields read are not the fields written");
    }
}

/*
 * Another number in one field, put by the function of the header that is for such a field, or handed over where the writer
 * takes numbers. Numbers from 2^63 on stand for negative ones where the field may be negative.
 */
static void try_number(struct tally *tally, const struct sequence *base, size_t place, uint64_t number)
{
    const struct field *field = &base->kind->field[place];
    struct sequence changed = *base;
    if (field->lowest < 0) {
        const int64_t negative_too = number >> 63 == 0 ? (int64_t)number : -1 - (int64_t)(UINT64_MAX - number);
        ww_put_signed_number(changed.answer, place, negative_too);
        try_put(tally, &changed, place, number, field->lowest <= negative_too && negative_too <= field->highest);
    } else {
        ww_put_number(changed.answer, place, number);
        try_put(tally, &changed, place, number, number <= (uint64_t)field->highest);
    }
}

/* One permitted number with each one of its bits turned, and far above its limits with the same low bits. */
static void try_beside(struct tally *tally, const struct sequence *base, size_t place, int64_t permitted)
{
    size_t bit;
    try_number(tally, base, place, (uint64_t)(0xffffff00 + permitted));
    try_number(tally, base, place, (uint64_t)(0x01010100 + permitted));
    try_number(tally, base, place, (uint64_t)(((int64_t)1 << 32) + permitted));
    for (bit = 0; bit < 64; bit++) {
        try_number(tally, base, place, (uint64_t)permitted ^ (uint64_t)1 << bit);
    }
}

/* The numbers of a field, or of a field of many the three at each end, the three around 0, and some. */
static void try_beside_all(struct tally *tally, const struct sequence *base, size_t place)
{
    const struct field *field = &base->kind->field[place];
    const int64_t range = field->highest - field->lowest + 1;
    int64_t number;
    for (number = field->lowest; number <= field->highest; number++) {
        if (range <= SMALL_RANGE || number < field->lowest + 3 || number > field->highest - 3 ||
            (-1 <= number && number <= 1) || random_below((uint64_t)range) < 4) {
            try_beside(tally, base, place, number);
        }
    }
}

/* Every field at its limits, past them by one, at the limits of 32 and 31 bits, and beside its permitted numbers. */
static void fields_at_limits(struct tally *tally, const struct kind *kind)
{
    struct sequence base;
    size_t i, k;
    for (i = 0; i < BASES * kind->fields; i++) {
        const size_t place = i % kind->fields;
        const struct field *field = &kind->field[place];
        const int64_t limits[] = {field->lowest - 1, field->lowest, field->highest, field->highest + 1,
                                  0x7fffffff, 0x80000000, 0xffffffff, 0x100000000, INT64_MAX,
                                  -0x7fffffff, INT64_C(-0x80000000), INT64_C(-0x80000001), INT64_MIN,
                                  256 + field->lowest, 65536 + field->highest};
        random_sequence(&base, kind);
        for (k = 0; k < sizeof limits / sizeof limits[0]; k++) {
            try_number(tally, &base, place, (uint64_t)limits[k]);
        }
        try_beside_all(tally, &base, place);
    }
}

/* Whole rows of fields drawn from all 32 bits: one that is permitted throughout does not come. */
static void random_fields(struct tally *tally, const struct kind *kind)
{
    struct sequence sequence = {kind, {0}, {0}};
    size_t i, place;
    for (i = 0; i < TRIES / 4; i++) {
        struct call write;
        for (place = 0; place < kind->fields; place++) {
            ww_put_number(sequence.answer, place, random_number() >> 32);
        }
        write = write_sequence_call(&sequence);
        compare(tally, &write, WW_BAD_FIELD);
    }
}

/* Sequences at random: good ones, ones of which some bits were turned, and bits that are no sequence at all. */
static void random_sequences(struct tally *tally, const struct kind *kind)
{
    struct sequence sequence = {kind, {0}, {0}};
    const struct call read = read_sequence_call(&sequence);
    size_t i, turns;
    for (i = 0; i < TRIES; i++) {
        random_sequence(&sequence, kind);
        there_and_back(tally, &sequence, WW_DONE);
        for (turns = 1 + random_below(20); turns > 0; turns--) {
            sequence.bits[random_below(kind->bits)] ^= 1;
        }
        compare(tally, &read, NOT_KNOWN);
        random_bits(sequence.bits, kind->bits);
        compare(tally, &read, NOT_KNOWN);
    }
}

void compare_sequences(struct tally *tally, const struct kind *kind)
{
    worked_sequences(tally, kind);
    fields_over_their_bits(tally, kind);
    fields_at_limits(tally, kind);
    random_fields(tally, kind);
    random_sequences(tally, kind);
}
