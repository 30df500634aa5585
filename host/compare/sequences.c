/* sequences.c: see sequences.h. */
#include "sequences.h"

#include <stdio.h>
#include <stdlib.h>
#include <string.h>

#include "random.h"
#include "second.h"
#include "shapes.h"

size_t all_fields(const struct kind *kind)
{
    return kind->fields + kind->hidden;
}

int takes_numbers(const struct kind *kind)
{
    return shapes[kind->write].numbers != 0;
}

int is_framing(const struct kind *kind, size_t place)
{
    return kind->letters[place] == '0' || kind->letters[place] == '1';
}

static size_t places_of(const struct kind *kind, char letter, size_t *places)
{
    size_t place, count = 0;
    for (place = 0; place < kind->bits; place++) {
        if (kind->letters[place] == letter) {
            places[count++] = place;
        }
    }
    return count;
}

size_t carried_places(const struct kind *kind, size_t places[MOST_SEQUENCE_BITS])
{
    const size_t of_fields = places_of(kind, '.', places);
    return of_fields + places_of(kind, 'c', places + of_fields);
}

int64_t field_holds(const struct field *field)
{
    return (int64_t)1 << field->bits;
}

int field_can_be_out_of_range(const struct field *field)
{
    return field->highest - field->lowest + 1 < field_holds(field);
}

/* Takes the dots of one field away. False where one of them is not there, or the range is more than the bits can hold. */
static int take_dots(char *letters, const struct field *field)
{
    char *first = letters + field->first;
    if (field->first > strlen(letters) || strspn(first, ".") < field->bits) {
        return 0;
    }
    memset(first, 'f', field->bits);
    return field->highest - field->lowest < field_holds(field);
}

/*
 * Every dot is of one field, and every other letter is as it must be. The fields are in order: those that the answer shows,
 * and those that it does not.
 */
static int fields_fill_the_dots(const struct kind *kind)
{
    char letters[MOST_SEQUENCE_BITS + 1];
    size_t places[MOST_SEQUENCE_BITS], i;
    strcpy(letters, kind->letters);
    for (i = 0; i < all_fields(kind); i++) {
        const int is_first = i == 0 || i == kind->fields;
        if ((!is_first && kind->field[i].first < kind->field[i - 1].first) || !take_dots(letters, &kind->field[i])) {
            return 0;
        }
    }
    return places_of(kind, 'c', places) == 16 && strspn(letters, "01fc") == kind->bits;
}

void sequence_check(const struct kind *kind)
{
    if (kind->bits > MOST_SEQUENCE_BITS || strlen(kind->letters) != kind->bits || kind->answer_bytes > MOST_ANSWER_BYTES ||
        kind->fields_bytes != 4 * kind->fields || kind->answer_bytes < kind->fields_bytes ||
        (takes_numbers(kind) && shapes[kind->write].numbers != kind->fields) || !fields_fill_the_dots(kind)) {
        fprintf(stderr, "compare: what is said of %s does not fit together\n", kind->name);
        exit(1);
    }
}

static void put_field_bits(struct sequence *sequence, size_t place, int64_t number)
{
    const struct field *field = &sequence->kind->field[place];
    size_t i;
    for (i = 0; i < field->bits; i++) {
        sequence->bits[field->first + i] = (uint8_t)((uint64_t)number >> i & 1);
    }
}

/* The number that the bits of a field stand for: the last one counts negative where the field may be negative. */
static int64_t number_in_bits(const struct sequence *sequence, size_t place)
{
    const struct field *field = &sequence->kind->field[place];
    const uint8_t *bits = sequence->bits + field->first;
    int64_t number = 0;
    size_t i;
    for (i = 0; i < field->bits; i++) {
        const int64_t weight = (int64_t)1 << i;
        number += bits[i] * (field->lowest < 0 && i == field->bits - 1 ? -weight : weight);
    }
    return number;
}

static void put_crc(struct sequence *sequence)
{
    uint8_t covered[MOST_SEQUENCE_BITS];
    size_t places[MOST_SEQUENCE_BITS], i;
    const size_t all = carried_places(sequence->kind, places), count = all - 16;
    uint64_t crc;
    for (i = 0; i < count; i++) {
        covered[i] = sequence->bits[places[i]];
    }
    crc = second_crc(covered, count);
    for (i = count; i < all; i++) {
        sequence->bits[places[i]] = (uint8_t)(crc >> (all - 1 - i) & 1);
    }
}

void sequence_seal(struct sequence *sequence)
{
    const struct kind *kind = sequence->kind;
    size_t i;
    for (i = 0; i < kind->bits; i++) {
        if (is_framing(kind, i)) {
            sequence->bits[i] = (uint8_t)(kind->letters[i] - '0');
        }
    }
    put_crc(sequence);
    for (i = 0; i < kind->fields; i++) {
        ww_put_signed_number(sequence->answer, i, number_in_bits(sequence, i));
    }
    if (kind->put_behind != NULL) {
        kind->put_behind(sequence->answer);
    }
}

uint32_t sequence_due(const struct sequence *sequence)
{
    const struct kind *kind = sequence->kind;
    size_t i;
    for (i = 0; i < all_fields(kind); i++) {
        const int64_t number = number_in_bits(sequence, i);
        if (number < kind->field[i].lowest || number > kind->field[i].highest) {
            return WW_BAD_FIELD;
        }
    }
    return WW_DONE;
}

void sequence_set(struct sequence *sequence, size_t place, int64_t number)
{
    put_field_bits(sequence, place, number);
    sequence_seal(sequence);
}

void random_sequence(struct sequence *sequence, const struct kind *kind)
{
    size_t i;
    sequence->kind = kind;
    for (i = 0; i < all_fields(kind); i++) {
        const struct field *field = &kind->field[i];
        const int as_written = i >= kind->fields && random_below(2) == 0;
        const uint64_t range = as_written ? 1 : (uint64_t)(field->highest - field->lowest) + 1;
        put_field_bits(sequence, i, field->lowest + (int64_t)random_below(range));
    }
    sequence_seal(sequence);
}

void edge_sequence(struct sequence *sequence, const struct kind *kind, int highest)
{
    size_t i;
    sequence->kind = kind;
    for (i = 0; i < all_fields(kind); i++) {
        put_field_bits(sequence, i, highest ? kind->field[i].highest : kind->field[i].lowest);
    }
    sequence_seal(sequence);
}

struct call read_sequence_call(const struct sequence *sequence)
{
    const struct kind *kind = sequence->kind;
    const struct call call = {kind->read, {0}, {slice_of(sequence->bits, kind->bits), room(kind->answer_bytes)}};
    return call;
}

struct call write_sequence_call(const struct sequence *sequence)
{
    const struct kind *kind = sequence->kind;
    struct call call = {kind->write, {0}, {slice_of(sequence->answer, kind->fields_bytes), room(kind->bits)}};
    size_t place;
    if (takes_numbers(kind)) {
        call.slice[0] = room(kind->bits);
        for (place = 0; place < kind->fields; place++) {
            call.number[place] = ww_number(sequence->answer, place);
        }
    }
    return call;
}

/* Gives what the answer does not show the numbers that the writer gives it. Where it has them nothing is done. */
static void set_as_written(struct sequence *sequence)
{
    const struct kind *kind = sequence->kind;
    size_t place;
    for (place = kind->fields; place < all_fields(kind); place++) {
        if (number_in_bits(sequence, place) != kind->field[place].lowest) {
            sequence_set(sequence, place, kind->field[place].lowest);
        }
    }
}

void there_and_back(struct tally *tally, const struct sequence *sequence, uint32_t due)
{
    const struct call write = write_sequence_call(sequence), read = read_sequence_call(sequence);
    struct sequence written = *sequence;
    set_as_written(&written);
    if (compare(tally, &write, sequence_due(&written)) == WW_DONE) {
        demand(memcmp(given(), written.bits, written.kind->bits) == 0, "not the bits due");
    }
    if (compare(tally, &read, due) == WW_DONE) {
        demand(memcmp(given(), sequence->answer, sequence->kind->answer_bytes) == 0, "not the answer due");
    }
}
