/*
 * An answer modem that sends a shunt plan by what the call modem said: the mark is from its INFO0, the data rate from its
 * INFO1c. Neither has a default: a far end that was not heard has permitted nothing, and nothing is sent to it.
 */
#include <stdio.h>
#include <string.h>
#include "workerwax.h"

static uint8_t plan[65536 + WW_MAX_BITS], back[65536 + WW_MAX_BITS];
static size_t length; /* of the plan */

/* Whether the plan, sent over a line and read at its other end, comes back as it was. */
static int comes_back(const uint64_t *line)
{
    uint8_t bits[WW_MAX_BITS], labels[WW_MAX_LABELS_BYTES];
    uint8_t numbers[WW_PARAMETERS_BYTES], sent[WW_WRITE_BYTES], heard[WW_READ_BYTES];
    uint64_t sender[] = {WW_STATE(line)}, reader[] = {WW_STATE(line)};
    if (ww_parameters(WW_SETTINGS(line), numbers, sizeof numbers) != WW_DONE) {
        return 0;
    }
    const size_t N = ww_number(numbers, WW_PARAMETERS_N), P = ww_number(numbers, WW_PARAMETERS_P);
    memset(back, 0, sizeof back);
    for (size_t at = 0; at < 8 * length; at += N) {
        for (size_t i = 0; i < N; i++) { /* lowest bit of a byte first */
            bits[i] = plan[(at + i) / 8] >> (at + i) % 8 & 1;
        }
        /* between the two the labels go through the trellis coder, over the line, and out of its decoder */
        if (ww_write(WW_STATE(sender), bits, N, labels, 32 * P, sent, sizeof sent) != WW_DONE ||
            ww_read(WW_STATE(reader), labels, 32 * P, bits, N, heard, sizeof heard) != WW_DONE) {
            return 0;
        }
        for (size_t i = 0; i < N; i++) {
            back[(at + i) / 8] |= (uint8_t)(bits[i] << (at + i) % 8);
        }
        for (size_t i = 0; i < WW_STATE_NUMBERS; i++) { /* each end goes on from the state that it was given */
            sender[i] = ww_number(sent, WW_NEXT_STATE + i);
            reader[i] = ww_number(heard, WW_NEXT_STATE + i);
        }
    }
    return memcmp(plan, back, sizeof plan) == 0;
}

/* The bits of a sequence that was received, a text of 0 and 1 from the demodulator. One too many is seen as well. */
static size_t received(const char *text, uint8_t *bits, size_t room)
{
    size_t count = 0;
    for (; count < room && text[count] != '\0'; count++) {
        bits[count] = (uint8_t)(text[count] - '0');
    }
    return count;
}

/* Takes the mark out of INFO0, and out of INFO1c the rate for the line's s. What was not heard leaves the line as it is. */
static void hear(uint64_t *line, const char *info0, const char *info1c)
{
    uint8_t bits[WW_INFO1C_BITS + 1], fields[WW_INFO0_BYTES], report[WW_INFO1C_REPORT_BYTES];
    double hertz;
    const uint32_t refused0 = ww_info0_read(bits, received(info0, bits, sizeof bits), fields, sizeof fields);
    const uint32_t refused1c = ww_info1c_read(bits, received(info1c, bits, sizeof bits), report, sizeof report);
    printf("INFO0 gives %u, INFO1c %u, ", refused0, refused1c);
    if (refused0 == WW_DONE) {
        line[WW_STATE_MARK] = ww_number(fields, WW_INFO0_MARK);
    }
    if (refused1c == WW_DONE) {
        line[WW_STATE_N] = ww_number(report, WW_INFO1C_RATE(line[WW_STATE_S])); /* 0: this symbol rate can't be used */
        ww_info1c_hertz(report, &hertz) ? printf("offset %.2f Hz, ", hertz) : printf("no offset measured, ");
    }
}

/* Starts a line by what was received and sends the plan, if it may. */
static int send_by(const char *which, const char *info0, const char *info1c)
{
    /* Answer modem, 3200 symbols a second, expanded shaping. Rate 0, mark 2: nobody has spoken for the far end yet. */
    uint64_t line[] = {1, 4, 0, 1, 2, 0, 0};
    uint8_t start[WW_START_BYTES];
    printf("%s: ", which);
    hear(line, info0, info1c);
    uint32_t refused = ww_start(WW_STATE(line), start, sizeof start);
    printf("%u bit/s %u: ", 2400 * (unsigned)line[WW_STATE_N], refused);
    if (refused == WW_NO_LARGE) {
        line[WW_STATE_N] = 12; /* the rate proposed is the highest one, and 28,800 bits a second need no mark */
        refused = ww_start(WW_STATE(line), start, sizeof start);
    }
    if (refused != WW_DONE) {
        printf("nothing sent\n");
        return 1;
    }
    const int same = comes_back(line);
    printf("%zu bytes sent at %u %s\n", length, 2400 * ww_number(start, WW_STATE_N), same ? "came back" : "were LOST");
    return same;
}

#define UP_TO_3200 "1111" "01110010" "0000000101000" "101100001" "000000000" "000000000" "100101101" /* of INFO1c */
int main(void)
{
    const char *mark = "1111" "01110010" "11111111010101000" "0000100100000010" "1111";
    const char *no_mark = "1111" "01110010" "11111111010100000" "1000100000001010" "1111";
    const char *turned = "1111" "01110010" "11111111010101000" "1000100000001010" "1111";
    const char *proposed = UP_TO_3200 "110101011" "000000000" "1101001111" "0110101011001111" "1111";
    const char *unusable = UP_TO_3200 "000000000" "000000000" "0000000001" "0101100001111111" "1111";
    const char *damaged = UP_TO_3200 "000000001" "000000000" "0000000001" "0101100001111111" "1111";
    length = fread(plan, 1, 65536, stdin);
    int good = send_by("with the mark", mark, proposed);
    good &= send_by("without it", no_mark, proposed);
    good &= send_by("without it, and its bit turned on the way", turned, proposed);
    good &= send_by("with it, but 3200 symbols a second can't be used", mark, unusable);
    good &= send_by("the same, and a bit of that rate turned on the way", mark, damaged);
    good &= send_by("with it, and a bit lost on the way", mark, proposed + 1);
    return good ? 0 : 1;
}
