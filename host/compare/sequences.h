/*
 * sequences.h: sequences that carry fields before a CRC, and the calls on them, for the groups that send or damage them.
 *
 * What one kind of sequence is, is data: struct kind. The groups of compare_sequences*.c go by that alone.
 */
#ifndef SEQUENCES_H
#define SEQUENCES_H

#include "calls.h"
#include "workerwax.h"

/* Room for any kind. sequence_check ends the program where one needs more. */
enum { MOST_SEQUENCE_BITS = 128, MOST_ANSWER_NUMBERS = 32, MOST_ANSWER_BYTES = 4 * MOST_ANSWER_NUMBERS };

/*
 * A field: its first bit, how many it has, lowest weight first, and what it may be. It is in two's complement where the
 * lowest is negative.
 */
struct field {
    size_t first, bits;
    int64_t lowest, highest;
};

/* A sequence with what is due for it written out: where it is read, the numbers of the answer, each in its 32 bits. */
struct worked {
    const char *sequence;
    uint32_t due;
    int64_t numbers[MOST_ANSWER_NUMBERS];
};

struct kind {
    const char *name;
    enum entry read, write;
    const char *letters; /* one for each bit: 0 and 1 always stand there, a dot is of the fields, a c of their CRC */
    size_t bits;
    const struct field *field;
    size_t fields;       /* of them, in the order of the places */
    size_t hidden;       /* behind them, those that the answer does not show. The writer gives them their lowest numbers */
    size_t fields_bytes; /* what the writer takes, as a slice or else as numbers: calls.def says which */
    size_t answer_bytes; /* what the reader gives: the fields first */
    void (*put_behind)(uint8_t *answer); /* puts behind the fields what the reader gives there; null where nothing */
    const struct worked *worked;
    size_t worked_count;
};

extern const struct kind info0, info1c, jp;

/* A sequence, and the answer of its reader. The answer's first numbers are what the writer takes. */
struct sequence {
    const struct kind *kind;
    uint8_t bits[MOST_SEQUENCE_BITS];
    uint8_t answer[MOST_ANSWER_BYTES];
};

/* Ends the program where letters, fields and lengths of a kind do not fit each other. */
void sequence_check(const struct kind *kind);

/* How many fields there are, those that the answer does not show with them. */
size_t all_fields(const struct kind *kind);

/* Whether the writer takes the fields as numbers. */
int takes_numbers(const struct kind *kind);

/* Whether the place always has the same bit. */
int is_framing(const struct kind *kind, size_t place);

/* The places of the fields and then of the CRC, and how many they are. */
size_t carried_places(const struct kind *kind, size_t places[MOST_SEQUENCE_BITS]);

/* How many different numbers the bits of a field can hold, and whether some of them are not permitted. */
int64_t field_holds(const struct field *field);
int field_can_be_out_of_range(const struct field *field);

/*
 * Puts around the bits that the fields have what belongs there, their CRC too, and has the answer follow. The fields may
 * be out of range: sequence_due is then WW_BAD_FIELD.
 */
void sequence_seal(struct sequence *sequence);
uint32_t sequence_due(const struct sequence *sequence);

/*
 * A sequence with all fields in range, at random; and with every field at its lowest, or at its highest. Of those that the
 * answer does not show, half are drawn as the writer gives them.
 */
void random_sequence(struct sequence *sequence, const struct kind *kind);
void edge_sequence(struct sequence *sequence, const struct kind *kind, int highest);

/* Gives a field the low bits of another number, and seals. */
void sequence_set(struct sequence *sequence, size_t place, int64_t number);

/* The calls. They point into the sequence. */
struct call read_sequence_call(const struct sequence *sequence);
struct call write_sequence_call(const struct sequence *sequence);

/*
 * Writes the fields, reads the bits, and demands that each gives the other, or that both refuse with what is due. Where a
 * field that the answer does not show is not as the writer gives it, the writer's due is the sequence in which it is.
 */
void there_and_back(struct tally *tally, const struct sequence *sequence, uint32_t due);

#endif
