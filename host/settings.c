/*
 * settings.c: inputs for the settings program, and the lines that the second program expects.
 *
 *     settings FOLDER
 *
 * writes FOLDER/NNN.input and FOLDER/NNN.expected for NNN from 000 on. tools/host-tests runs the settings program on
 * each input and compares. The settings program takes a byte for each of the settings; any other number of bytes is
 * refused with 8, and that is tested first.
 */
#include <inttypes.h>
#include <stdio.h>
#include <stdlib.h>
#include <string.h>

#include "random.h"
#include "second.h"
#include "workerwax.h"

#define MOST_BYTES 8
#define STATED_RUNS 500

struct input {
    size_t length;
    uint8_t bytes[MOST_BYTES];
};

/* Worked cases, limits on each side, and lengths: a line end behind the fifth byte is a sixth byte. */
static const struct input fixed[] = {
    {5, {0, 5, 14, 1, 1}},     {5, {0, 5, 14, 1, 0}},        {5, {0, 5, 14, 1, 2}},          {5, {0, 5, 15, 1, 1}},
    {5, {0, 4, 12, 0, 0}},     {5, {0, 4, 12, 1, 0}},        {5, {0, 4, 13, 0, 0}},          {5, {0, 4, 13, 0, 1}},
    {5, {0, 4, 13, 0, 2}},     {5, {0, 0, 1, 0, 0}},         {5, {0, 0, 0, 0, 0}},           {5, {0, 0, 10, 0, 0}},
    {5, {1, 5, 2, 0, 255}},    {5, {1, 5, 2, 0, 0}},         {5, {1, 5, 1, 0, 0}},           {5, {2, 9, 99, 9, 9}},
    {5, {1, 6, 99, 9, 9}},     {5, {1, 5, 99, 9, 9}},        {5, {1, 5, 9, 9, 9}},           {5, {1, 5, 9, 1, 9}},
    {5, {255, 5, 9, 1, 1}},    {5, {0, 255, 9, 1, 1}},       {5, {0, 5, 255, 1, 1}},         {5, {0, 5, 9, 255, 1}},
    {0, {0}},                  {1, {0}},                     {2, {0, 5}},                    {3, {0, 5, 14}},
    {4, {0, 5, 14, 1}},        {6, {0, 5, 14, 1, 1, 0}},     {6, {0, 5, 14, 1, 1, '\n'}},    {7, {0, 5, 14, 1, 1, 0, 0}},
    {8, {0, 5, 14, 1, 1}},     {4, {255, 255, 255, 255}},    {6, {9, 9, 9, 9, 9, 9}},        {5, {'0', '5', '9', '1', '1'}},
};

#define FIXED (sizeof fixed / sizeof fixed[0])

/* The rest is drawn: mostly near what is permitted, for bytes drawn from all 256 are refused for their role. */
static struct input drawn(void)
{
    static const uint64_t near[5] = {2, 6, 15, 2, 2};
    struct input input = {random_below(12) == 0 ? random_below(MOST_BYTES + 1) : 5, {0}};
    size_t i;
    for (i = 0; i < MOST_BYTES; i++) {
        input.bytes[i] = (uint8_t)(i < 5 && random_below(16) != 0 ? random_below(near[i]) : random_below(256));
    }
    return input;
}

static void print_expected(FILE *to, const struct input *input)
{
    const uint8_t *x = input->bytes;
    uint8_t answer[WW_PARAMETERS_BYTES];
    uint32_t refused = WW_BAD_LENGTH;
    size_t i;
    if (input->length == WW_SETTINGS_NUMBERS) {
        refused = second_parameters(WW_SETTINGS(x), answer, sizeof answer);
    }
    if (refused != WW_DONE) {
        fprintf(to, "refused %" PRIu32 "\n", refused);
        return;
    }
    for (i = 0; i < 8; i++) {
        fprintf(to, "%" PRIu32 "%c", ww_number(answer, i), i == 7 ? '\n' : ' ');
    }
}

static FILE *opened(const char *folder, size_t number, const char *ending)
{
    char name[4096];
    FILE *file;
    int length = snprintf(name, sizeof name, "%s/%03zu.%s", folder, number, ending);
    file = length > 0 && (size_t)length < sizeof name ? fopen(name, "wb") : NULL;
    if (file == NULL) {
        fprintf(stderr, "settings: %s/%03zu.%s cannot be written\n", folder, number, ending);
        exit(2);
    }
    return file;
}

static void closed(FILE *file)
{
    if (fclose(file) != 0) {
        perror("settings");
        exit(2);
    }
}

int main(int words, char **word)
{
    size_t number;
    if (words != 2) {
        fprintf(stderr, "usage: settings FOLDER\n");
        return 2;
    }
    second_init();
    random_seed(34);
    for (number = 0; number < STATED_RUNS; number++) {
        const struct input input = number < FIXED ? fixed[number] : drawn();
        FILE *to = opened(word[1], number, "input");
        fwrite(input.bytes, 1, input.length, to);
        closed(to);
        to = opened(word[1], number, "expected");
        print_expected(to, &input);
        closed(to);
    }
    printf("%d\n", STATED_RUNS);
    return 0;
}
