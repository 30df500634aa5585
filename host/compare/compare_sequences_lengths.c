/* compare_sequences_lengths.c: the reader and the writer of a kind of sequence, with slices of a wrong length. */
#include <string.h>

#include "compare.h"
#include "random.h"
#include "sequences.h"
#include "shapes.h"

/* Bytes for slices that are longer than the right ones. */
static uint8_t plenty[2 * (MOST_SEQUENCE_BITS + MOST_ANSWER_BYTES)];

/*
 * The call with as much to read as any length needs: as in the good call, as far as that goes, or else only bytes of 255,
 * and numbers of such bytes.
 */
static struct call with_plenty(const struct call *good, int with_bad_content)
{
    struct call call = *good;
    struct slice *from = &call.slice[FROM];
    memset(plenty, with_bad_content ? 255 : 0, sizeof plenty);
    if (with_bad_content) {
        memset(call.number, 255, sizeof call.number);
    } else if (from->content != NULL) {
        memcpy(plenty, from->content, from->stated);
    }
    if (from->content != NULL) {
        from->content = plenty;
    }
    return call;
}

/* One slice with another length. */
static void try_length(struct tally *tally, const struct call *good, size_t which, size_t stated, int with_bad_content)
{
    struct call call = with_plenty(good, with_bad_content);
    struct slice *slice = &call.slice[which];
    if (stated == slice->stated) {
        return;
    }
    slice->stated = stated;
    if (stated <= sizeof plenty) {
        slice->there = stated;
    }
    compare(tally, &call, WW_BAD_LENGTH);
}

static void try_lengths(struct tally *tally, const struct call *good, int with_bad_content)
{
    size_t which, length, i;
    for (which = 0; which < shapes[good->entry].slices; which++) {
        const size_t right = good->slice[which].stated;
        const size_t far[] = {256 + right, 65536 + right, ((size_t)1 << 32) + right, HUGE_LENGTH, HUGE_LENGTH + right,
                              (SIZE_MAX >> 1) + 1 + right, SIZE_MAX};
        for (length = 0; length <= 2 * right; length++) {
            try_length(tally, good, which, length, with_bad_content);
        }
        for (i = 0; i < sizeof far / sizeof far[0]; i++) {
            try_length(tally, good, which, far[i], with_bad_content);
        }
    }
}

/* Both lengths changed so that their sum stays right: it is not the sum that is tested. The two exchanged among them. */
static void try_two_lengths(struct tally *tally, const struct call *good)
{
    const size_t from = good->slice[FROM].stated, both = from + good->slice[TO].stated;
    size_t length;
    for (length = 0; length <= both; length++) {
        struct call call = *good;
        call.slice[FROM] = slice_of(plenty, length);
        call.slice[TO] = room(both - length);
        if (length != from) {
            compare(tally, &call, WW_BAD_LENGTH);
        }
    }
}

/* What the reader gives and what the writer takes may differ in length. The one taken for the other, with all else good. */
static void try_exchanged(struct tally *tally, const struct sequence *sequence)
{
    const struct kind *kind = sequence->kind;
    struct call read = read_sequence_call(sequence), write = write_sequence_call(sequence);
    if (kind->fields_bytes == kind->answer_bytes) {
        return;
    }
    read.slice[TO] = room(kind->fields_bytes);
    compare(tally, &read, WW_BAD_LENGTH);
    if (!takes_numbers(kind)) {
        write.slice[FROM] = slice_of(sequence->answer, kind->answer_bytes);
        compare(tally, &write, WW_BAD_LENGTH);
    }
}

void compare_sequences_lengths(struct tally *tally, const struct kind *kind)
{
    struct sequence sequence;
    int with_bad_content;
    size_t which;
    random_sequence(&sequence, kind);
    for (which = 0; which < 2; which++) {
        const struct call good = which == 0 ? read_sequence_call(&sequence) : write_sequence_call(&sequence);
        for (with_bad_content = 0; with_bad_content < 2; with_bad_content++) {
            try_lengths(tally, &good, with_bad_content);
            if (shapes[good.entry].slices == 2) {
                try_two_lengths(tally, &good);
            }
        }
    }
    try_exchanged(tally, &sequence);
}
