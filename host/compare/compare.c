/*
 * compare.c: the library against the second program, over many inputs.
 *
 * The inputs are the same in every run. The program prints how many comparisons each group made, fails where a group
 * made fewer than it states here, and fails where an entry never gave a number that it can give. calls.h says what a
 * comparison demands.
 */
#include "compare.h"

#include <inttypes.h>
#include <stdio.h>

#include "random.h"

struct group {
    void (*run)(struct tally *tally);
    struct tally tally;
};

static struct group groups[] = {
    {compare_cases, {"cases of the scope paper, with their answers written out", 0, 39}},
    {compare_settings, {"settings and starts, in and out of range", 0, 155300}},
    {compare_rings, {"rings and numbers, for all 427 permitted K and M", 0, 262568}},
    {compare_frames, {"data frames there and back, in rows", 0, 27432}},
    {compare_damage, {"damaged bits and labels", 0, 187973}},
    {compare_lengths, {"wrong lengths and wide numbers, writer and reader", 0, 57720}},
    {compare_ties, {"several faults at once", 0, 60000}},
    {compare_info0, {"INFO0, all 131,072 bodies there and back", 0, 262144}},
    {compare_info1c, {"INFO1c, all 1,024 counts there and back, and counts around them", 0, 23304}},
    {compare_jp, {"Jp, all 262,144 that can be written there and back, all reserved bits, and wide numbers", 0, 730496}},
};

struct sequence_group {
    void (*run)(struct tally *tally, const struct kind *kind);
    const struct kind *kind;
    struct tally tally;
};

static struct sequence_group sequence_groups[] = {
    {compare_sequences, &info0, {"INFO0, worked sequences, fields in and out of range, random ones", 0, 37032}},
    {compare_sequences_damage, &info0, {"INFO0 with bits turned, in bursts too, and bytes that are no bits", 0, 92148}},
    {compare_sequences_lengths, &info0, {"INFO0 with wrong lengths", 0, 1316}},
    {compare_sequences_ties, &info0, {"INFO0 with several faults at once", 0, 20000}},
    {compare_sequences, &info1c, {"INFO1c, worked sequences, fields in and out of range, random ones", 0, 139639}},
    {compare_sequences_damage, &info1c, {"INFO1c with bits turned, in bursts too, and bytes that are no bits", 0, 226668}},
    {compare_sequences_lengths, &info1c, {"INFO1c with wrong lengths", 0, 2494}},
    {compare_sequences_ties, &info1c, {"INFO1c with several faults at once", 0, 20000}},
    {compare_sequences, &jp, {"Jp, worked sequences, fields in and out of range, random ones", 0, 165900}},
    {compare_sequences_damage, &jp, {"Jp with bits turned, in bursts too, and bytes that are no bits", 0, 132368}},
    {compare_sequences_lengths, &jp, {"Jp with wrong lengths", 0, 883}},
    {compare_sequences_ties, &jp, {"Jp with several faults at once", 0, 20000}},
};

#define COUNT_OF(groups) (sizeof groups / sizeof groups[0])

static uint64_t all;

/* Whether the group made as many comparisons as it states. */
static int report(const struct tally *tally)
{
    printf("%8" PRIu64 "  %s\n", tally->made, tally->group);
    fflush(stdout);
    all += tally->made;
    if (tally->made < tally->stated) {
        fprintf(stderr, "compare: this group states %" PRIu64 " comparisons\n", tally->stated);
        return 0;
    }
    return 1;
}

int main(void)
{
    int good = 1;
    size_t i;
    random_seed(34);
    calls_open();
    for (i = 0; i < COUNT_OF(sequence_groups); i++) {
        sequence_check(sequence_groups[i].kind);
    }
    for (i = 0; i < COUNT_OF(groups); i++) {
        groups[i].run(&groups[i].tally);
        good &= report(&groups[i].tally);
    }
    for (i = 0; i < COUNT_OF(sequence_groups); i++) {
        sequence_groups[i].run(&sequence_groups[i].tally, sequence_groups[i].kind);
        good &= report(&sequence_groups[i].tally);
    }
    printf("%8" PRIu64 "  in all, each with its buffers' ends and their starts against a guard\n", all);
    printf("how often each entry gave each number:\n");
    if (!calls_all_met()) {
        fprintf(stderr, "compare: an entry never gave a number that it can give\n");
        good = 0;
    }
    return good ? 0 : 1;
}
