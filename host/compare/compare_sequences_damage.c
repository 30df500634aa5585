/*
 * compare_sequences_damage.c: sequences that did not come as they were sent.
 *
 * What is due for bits that were turned follows from where they are: 16 in what always stands there, 17 in fields and CRC.
 * There the polynomial finds any one bit, any two bits so near to each other, and any burst of up to sixteen.
 */
#include <string.h>

#include "compare.h"
#include "random.h"
#include "sequences.h"

#define SEQUENCES 12
#define LONGEST_BURST 16

/* Every bit, and every two bits. */
static void turn_bits(struct tally *tally, const struct sequence *good)
{
    const struct kind *kind = good->kind;
    size_t one, other;
    for (one = 0; one < kind->bits; one++) {
        for (other = one; other < kind->bits; other++) {
            struct sequence damaged = *good;
            const struct call read = read_sequence_call(&damaged);
            damaged.bits[one] ^= 1;
            if (other != one) {
                damaged.bits[other] ^= 1;
            }
            compare(tally, &read, is_framing(kind, one) || is_framing(kind, other) ? WW_BAD_SYNC : WW_BAD_CRC);
        }
    }
}

/* The places from which bursts start, and how many they are: those of fields and CRC. */
struct carried {
    size_t places[MOST_SEQUENCE_BITS], count;
};

static struct carried carried_by(const struct kind *kind)
{
    struct carried carried;
    carried.count = carried_places(kind, carried.places);
    return carried;
}

/* A burst: its first bit and its last are turned, and of those between them the ones that the pattern has. */
static void turn_burst(struct tally *tally, const struct sequence *good, const size_t *places, size_t length,
                       uint64_t pattern)
{
    struct sequence damaged = *good;
    const struct call read = read_sequence_call(&damaged);
    size_t i;
    for (i = 0; i < length; i++) {
        damaged.bits[places[i]] ^= (uint8_t)(i == 0 || i == length - 1 ? 1 : pattern >> i & 1);
    }
    compare(tally, &read, WW_BAD_CRC);
}

static void turn_bursts(struct tally *tally, const struct sequence *good)
{
    const struct carried carried = carried_by(good->kind);
    size_t first, length;
    for (length = 1; length <= LONGEST_BURST; length++) {
        for (first = 0; first + length <= carried.count; first++) {
            const size_t *places = carried.places + first;
            turn_burst(tally, good, places, length, 0);
            turn_burst(tally, good, places, length, UINT64_MAX);
            turn_burst(tally, good, places, length, random_number());
            turn_burst(tally, good, places, length, random_number());
        }
    }
}

/* Every burst there is of up to sixteen bits that starts eight bits before the CRC. */
static void turn_all_bursts(struct tally *tally, const struct sequence *good)
{
    const struct carried carried = carried_by(good->kind);
    const size_t *places = carried.places + carried.count - 16 - 8;
    uint64_t between;
    size_t length;
    for (length = 1; length <= LONGEST_BURST; length++) {
        for (between = 0; between < (uint64_t)1 << (length < 2 ? 0 : length - 2); between++) {
            turn_burst(tally, good, places, length, between << 1);
        }
    }
}

/* The one burst of seventeen that no rest shows: the polynomial itself. It turns a sequence into one of other fields. */
static void turn_polynomial(struct tally *tally, const struct sequence *good)
{
    const struct carried carried = carried_by(good->kind);
    size_t first;
    for (first = 0; first + LONGEST_BURST < carried.count; first++) {
        const size_t *places = carried.places + first;
        struct sequence turned = *good, other;
        const struct call read = read_sequence_call(&turned);
        turned.bits[places[0]] ^= 1;
        turned.bits[places[4]] ^= 1;
        turned.bits[places[11]] ^= 1;
        turned.bits[places[16]] ^= 1;
        other = turned;
        sequence_seal(&other);
        if (compare(tally, &read, sequence_due(&other)) == WW_DONE) {
            demand(memcmp(given(), other.answer, other.kind->answer_bytes) == 0, "not the answer of the other fields");
        }
    }
}

/* Every byte that is no bit, at every place. */
static void put_bytes(struct tally *tally, const struct sequence *sequence)
{
    size_t place;
    unsigned byte;
    for (place = 0; place < sequence->kind->bits; place++) {
        for (byte = 2; byte < 256; byte++) {
            struct sequence damaged = *sequence;
            const struct call read = read_sequence_call(&damaged);
            damaged.bits[place] = (uint8_t)byte;
            compare(tally, &read, WW_BAD_BIT);
        }
    }
}

/* A sequence for which 16, 17 and 18 would each be due without the one before it. */
static struct sequence all_wrong(const struct kind *kind)
{
    const struct carried carried = carried_by(kind);
    struct sequence sequence;
    size_t place = 0;
    while (!field_can_be_out_of_range(&kind->field[place])) {
        place++;
    }
    random_sequence(&sequence, kind);
    sequence_set(&sequence, place, kind->field[place].highest + 1);
    sequence.bits[carried.places[carried.count - 16]] ^= 1;
    sequence.bits[carried.places[0] - 1] ^= 1;
    return sequence;
}

void compare_sequences_damage(struct tally *tally, const struct kind *kind)
{
    struct sequence sequence;
    size_t i;
    for (i = 0; i < SEQUENCES; i++) {
        if (i < 2) {
            edge_sequence(&sequence, kind, i == 1);
        } else {
            random_sequence(&sequence, kind);
        }
        turn_bits(tally, &sequence);
        turn_bursts(tally, &sequence);
        turn_polynomial(tally, &sequence);
    }
    turn_all_bursts(tally, &sequence);
    put_bytes(tally, &sequence);
    sequence = all_wrong(kind);
    put_bytes(tally, &sequence);
}
