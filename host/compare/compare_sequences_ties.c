/*
 * compare_sequences_ties.c: several faults at once in a call of the reader or the writer of a kind of sequence, so that the
 * order of the refusals is seen. As in compare_ties.c the first in the header's list is due, and follows from the faults
 * and the list alone. Every set of faults comes, so every two come with and without each other.
 */
#include <string.h>

#include "compare.h"
#include "random.h"
#include "refusals.h"
#include "sequences.h"
#include "shapes.h"

#define TRIES 20000

/* The faults, in the order in which they are made: the CRC is first put right for the range, and then made wrong. */
enum fault { RANGE, CHECK, FRAMING, BYTE, LENGTH_FROM, LENGTH_TO, FAULTS };

/* A call and the sequence that it points to. */
struct attempt {
    struct sequence sequence;
    struct call call;
    int reading;
};

/* A number beyond the field's highest, or below its lowest, in 32 bits: near to them or anywhere. */
static uint64_t out_of_range(const struct field *field)
{
    const uint64_t permitted = (uint64_t)(field->highest - field->lowest) + 1;
    const uint64_t beyond = random_below(random_below(2) == 0 ? 8 : 0x100000000 - permitted);
    return (uint64_t)(field->highest + 1 + (int64_t)beyond) & 0xffffffff;
}

/* 18: a field out of its range. Of what is read not every field can be. */
static uint32_t fault_in_range(struct attempt *attempt)
{
    struct sequence *sequence = &attempt->sequence;
    const struct field *field;
    size_t place;
    do {
        place = random_below(attempt->reading ? all_fields(sequence->kind) : sequence->kind->fields);
        field = &sequence->kind->field[place];
    } while (attempt->reading && !field_can_be_out_of_range(field));
    if (attempt->reading) {
        const int64_t beyond = field->lowest + field_holds(field) - 1 - field->highest;
        sequence_set(sequence, place, field->highest + 1 + (int64_t)random_below((uint64_t)beyond));
    } else {
        ww_put_number(sequence->answer, place, out_of_range(field));
        attempt->call = write_sequence_call(sequence);
    }
    return WW_BAD_FIELD;
}

/* 17: some bits of the CRC turned, or one of the fields. */
static uint32_t fault_in_check(struct attempt *attempt)
{
    struct sequence *sequence = &attempt->sequence;
    size_t places[MOST_SEQUENCE_BITS], i;
    const size_t crc = carried_places(sequence->kind, places) - 16;
    const uint64_t pattern = 1 + random_below(65535);
    if (random_below(2) == 0) {
        sequence->bits[places[random_below(crc)]] ^= 1;
        return WW_BAD_CRC;
    }
    for (i = 0; i < 16; i++) {
        sequence->bits[places[crc + i]] ^= (uint8_t)(pattern >> i & 1);
    }
    return WW_BAD_CRC;
}

/* 16: a bit that always stands there. */
static uint32_t fault_in_framing(struct attempt *attempt)
{
    size_t place;
    do {
        place = random_below(attempt->sequence.kind->bits);
    } while (!is_framing(attempt->sequence.kind, place));
    attempt->sequence.bits[place] ^= 1;
    return WW_BAD_SYNC;
}

static uint32_t fault_in_byte(struct attempt *attempt)
{
    attempt->sequence.bits[random_below(attempt->sequence.kind->bits)] = (uint8_t)(2 + random_below(254));
    return WW_BAD_BIT;
}

/* The bytes are those of the call, as far as they go, with zeros behind them. */
static uint32_t fault_in_length(struct attempt *attempt, size_t which)
{
    static uint8_t longer[2 * (MOST_SEQUENCE_BITS + MOST_ANSWER_BYTES)];
    struct slice *slice = &attempt->call.slice[which];
    const size_t right = slice->stated;
    const size_t lengths[4] = {right - 1, right + 1, random_below(right), right + 1 + random_below(right)};
    slice->there = slice->stated = lengths[random_below(4)];
    if (slice->content != NULL) {
        memset(longer, 0, sizeof longer);
        memcpy(longer, slice->content, right);
        slice->content = longer;
    }
    return WW_BAD_LENGTH;
}

/*
 * Makes a fault and gives its refusal. The writer is given no bits, so nothing can be wrong with them, and one that takes
 * numbers has nothing to read at all.
 */
static uint32_t make_fault(struct attempt *attempt, size_t fault)
{
    const struct shape *shape = &shapes[attempt->call.entry];
    switch (fault) {
    case RANGE: return fault_in_range(attempt);
    case CHECK: return attempt->reading ? fault_in_check(attempt) : WW_DONE;
    case FRAMING: return attempt->reading ? fault_in_framing(attempt) : WW_DONE;
    case BYTE: return attempt->reading ? fault_in_byte(attempt) : WW_DONE;
    case LENGTH_FROM: return shape->read_only > 0 ? fault_in_length(attempt, FROM) : WW_DONE;
    default: return fault_in_length(attempt, shape->slices - 1);
    }
}

void compare_sequences_ties(struct tally *tally, const struct kind *kind)
{
    static struct attempt attempt;
    uint64_t try, set;
    size_t fault;
    for (try = 0; try < TRIES; try++) {
        uint32_t due = WW_DONE;
        random_sequence(&attempt.sequence, kind);
        attempt.reading = random_below(4) != 0;
        attempt.call = attempt.reading ? read_sequence_call(&attempt.sequence) : write_sequence_call(&attempt.sequence);
        /* a wrong length hides all that comes behind it, so three quarters of the sets are without one */
        set = try / 4 % ((uint64_t)1 << (try % 4 == 0 ? FAULTS : LENGTH_FROM));
        for (fault = 0; fault < FAULTS; fault++) {
            if (set >> fault & 1) {
                due = first_due(due, make_fault(&attempt, fault));
            }
        }
        compare(tally, &attempt.call, due);
    }
}
