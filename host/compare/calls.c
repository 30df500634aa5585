/* calls.c: see calls.h. */
#define _DEFAULT_SOURCE
#include "calls.h"

#include <inttypes.h>
#include <signal.h>
#include <stdio.h>
#include <stdlib.h>
#include <string.h>
#include <unistd.h>

#include "lent.h"
#include "refusals.h"
#include "second.h"
#include "shapes.h"
#include "workerwax.h"

static struct lent lent[PROGRAMS][MOST_SLICES];
static uint64_t came_back[ENTRIES][RESULTS];
static uint64_t calls_made;

/* What is being called, for whoever has to report it. */
static struct call current;
static enum program current_program;

static void print_bytes(const uint8_t *bytes, size_t length)
{
    size_t i;
    for (i = 0; i < length; i++) {
        fprintf(stderr, " %u", bytes[i]);
    }
    fprintf(stderr, "\n");
}

static void print_call(const struct call *call)
{
    const struct shape *shape = &shapes[call->entry];
    size_t i;
    fprintf(stderr, "compare: the call was %s of", shape->name);
    for (i = 0; i < shape->numbers; i++) {
        fprintf(stderr, " %" PRIu64, call->number[i]);
    }
    fprintf(stderr, "\n");
    for (i = 0; i < shape->slices; i++) {
        const struct slice *slice = &call->slice[i];
        fprintf(stderr, "  slice %zu: length stated %zu, bytes there %zu:", i, slice->stated, slice->there);
        if (slice->content == NULL) {
            fprintf(stderr, " canaries\n");
        } else {
            print_bytes(slice->content, slice->there);
        }
    }
}

static void fail(const char *why)
{
    fprintf(stderr, "compare: %s\n", why);
    print_call(&current);
    exit(1);
}

/* Printing from a handler is not safe in general. Here the call that faulted prints nothing, and the program ends. */
static void on_fault(int signal_number)
{
    fprintf(stderr, "compare: %s %s\n", current_program == LIBRARY ? "the library" : "the second program",
            signal_number == SIGILL ? "ran into a trap, as on undefined behaviour" : "touched memory that was not lent to it");
    print_call(&current);
    fflush(stdout);
    _exit(1);
}

void calls_open(void)
{
    size_t program, i;
    shapes_check();
    for (program = 0; program < PROGRAMS; program++) {
        for (i = 0; i < MOST_SLICES; i++) {
            lent_open(&lent[program][i]);
        }
    }
    if (!lent_guards_hold(&lent[LIBRARY][0])) {
        fprintf(stderr, "compare: the pages around a buffer can be touched, so no step out of it would be seen\n");
        exit(1);
    }
    second_init();
    signal(SIGSEGV, on_fault);
    signal(SIGBUS, on_fault);
    signal(SIGILL, on_fault);
}

struct slice slice_of(const uint8_t *content, size_t length)
{
    const struct slice slice = {content, length, length};
    return slice;
}

struct slice room(size_t length)
{
    return slice_of(NULL, length);
}

/* What one program may have done to what was lent to it. */
static void check_lent(const struct call *call, enum program program, uint32_t number)
{
    const struct shape *shape = &shapes[call->entry];
    size_t i;
    for (i = 0; i < shape->slices; i++) {
        const struct lent *one = &lent[program][i];
        if (number != WW_DONE && !lent_is_untouched(one)) {
            fail(program == LIBRARY ? "the library refused and changed a lent slice"
                                    : "the second program refused and changed a lent slice");
        }
        if (!lent_is_surrounded(one) || (i < shape->read_only && !lent_is_untouched(one))) {
            fail(program == LIBRARY ? "the library wrote where nothing was lent for writing"
                                    : "the second program wrote where nothing was lent for writing");
        }
    }
}

/* Both programs have the same in every slice, and in what lies around it. */
static void check_same(const struct shape *shape)
{
    size_t i;
    for (i = 0; i < shape->slices; i++) {
        const struct lent *library = &lent[LIBRARY][i], *second = &lent[SECOND][i];
        if (memcmp(library->page, second->page, lent_page_size()) != 0) {
            fprintf(stderr, "compare: slice %zu, the library:", i);
            print_bytes(library->bytes, library->length);
            fprintf(stderr, "compare: slice %zu, the second program:", i);
            print_bytes(second->bytes, second->length);
            fail("they disagree on the contents of a slice");
        }
    }
}

/* Both programs in one placement. */
static uint32_t compare_placed(const struct call *call, enum placement placement)
{
    const struct shape *shape = &shapes[call->entry];
    uint8_t canary = (uint8_t)(89 * calls_made++);
    uint32_t number[PROGRAMS];
    size_t i;
    for (current_program = 0; current_program < PROGRAMS; current_program++) {
        struct lent *b = lent[current_program];
        for (i = 0; i < shape->slices; i++) {
            lent_set(&b[i], placement, call->slice[i].content, call->slice[i].there, canary);
        }
        number[current_program] = shape_call(current_program, call, b, placement);
        check_lent(call, current_program, number[current_program]);
    }
    if (number[LIBRARY] != number[SECOND]) {
        fprintf(stderr, "compare: the library gives %" PRIu32 ", the second program %" PRIu32 "\n", number[LIBRARY],
                number[SECOND]);
        fail("they disagree on the number");
    }
    check_same(shape);
    return number[LIBRARY];
}

uint32_t compare(struct tally *tally, const struct call *call, uint32_t expected)
{
    uint32_t number;
    current = *call;
    number = compare_placed(call, AT_END);
    if (compare_placed(call, AT_START) != number) {
        fail("the number depends on where the buffers are");
    }
    if (!shape_can_give(&shapes[call->entry], number)) {
        fprintf(stderr, "compare: %" PRIu32 "\n", number);
        fail("a number that this entry never gives");
    }
    if (expected != NOT_KNOWN && number != expected) {
        fprintf(stderr, "compare: %" PRIu32 " where %" PRIu32 " is due\n", number, expected);
        fail("both give a number that is not the one due");
    }
    came_back[call->entry][number]++;
    tally->made++;
    return number;
}

const uint8_t *compared(size_t slice)
{
    return lent[LIBRARY][slice].bytes;
}

const uint8_t *given(void)
{
    return compared(shapes[current.entry].slices - 1);
}

void demand(int fact, const char *what)
{
    if (!fact) {
        fail(what);
    }
}

int calls_all_met(void)
{
    int all = 1;
    size_t entry;
    uint32_t number;
    for (entry = 0; entry < ENTRIES; entry++) {
        printf("  %-12s", shapes[entry].name);
        for (number = 0; number < RESULTS; number++) {
            if (shape_can_give(&shapes[entry], number)) {
                printf(" %" PRIu32 ":%" PRIu64, number, came_back[entry][number]);
                all = all && came_back[entry][number] != 0;
            }
        }
        printf("\n");
    }
    return all;
}
