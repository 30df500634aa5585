/*
 * workerwax.h: the data side of an ITU-T V.34 (02/98) modem, for a host program in C or C++.
 *
 * What does it do?
 *
 * User bits go in, one data frame at a time, and labels come out for the caller's trellis coder: scrambler (clause 7),
 * framing (clause 8), parser, shell mapper and differential coder (clauses 9.3 to 9.5). The reader is the exact
 * inverse. Trellis coder, precoder, non-linear coder, auxiliary channel and start-up signalling are the caller's.
 *
 * So that settings come from the line and not from a binder, the INFO0 and INFO1c sequences are read and written (clause
 * 10.1.2.3, Tables 14 and 15): from INFO0 comes the mark, from INFO1c what is proposed for each symbol rate. The Jp
 * sequence of ITU-T V.92 (11/2000), Table 22, is read and written too, for lines with a digital end: the digital modem
 * sends it to the analogue one. The caller sends and receives the bits of all three.
 *
 * How does it work?
 *
 * Each call takes numbers and lent byte slices. The library keeps nothing between two calls and allocates nothing, so
 * calls may run in any number of threads. The state of a line is a row of numbers that the caller holds: a start gives
 * the first ones, and the writer and the reader each give the next. Every call tests everything itself.
 *
 * Numbers. Every number is a uint64_t. A narrower type would let a C conversion turn mark 257, which states nothing,
 * into mark 1, which states a permission. For the same reason do not narrow a number yourself on its way here: pass
 * what you have.
 *
 * Slices. A slice is a pointer and a length in bytes. The caller owes, at every call:
 *   - the pointer is to that many bytes, and is not null where the length is not 0;
 *   - no two slices of one call overlap. Nothing tests this.
 * A length other than the exact one is not an error of the caller's: it is refused with WW_BAD_LENGTH and nothing is
 * touched.
 *
 * Results. Every call returns WW_DONE or the number of a refusal. Of several refusals the first in the order of
 * WW_REFUSALS_IN_ORDER is given, which is not that of their numbers throughout. A refusal leaves every lent slice as it
 * was, the answer too.
 *
 * Answers. What else there is to say goes into the lent answer: numbers of 32 bits, four bytes each, low byte first, in
 * the order given at the call. ww_number takes one out. Its places are the WW_PARAMETERS_.., WW_STATE_.., WW_INFO0_..,
 * WW_INFO1C_.., WW_JP_.. below. A number that may be negative is in two's complement: ww_signed_number takes it out. A number
 * that is no whole one stands behind the others, as the eight bytes of an IEEE 754 double, low byte first, and has a getter
 * of its own.
 * Fields that are handed in as a slice have the layout in which they are answered, so what was read can be written as it
 * is; ww_put_number and ww_put_signed_number put one number there.
 */
#ifndef WORKERWAX_H
#define WORKERWAX_H

#include <stddef.h>
#include <stdint.h>
#include <string.h>

#ifdef __cplusplus
extern "C" {
#endif

#define WW_VERSION_MAJOR 0
#define WW_VERSION_MINOR 4
#define WW_VERSION_STRING "0.4"

/* A refusal that nobody looks at is taken for success, and an offset that was not measured for one that was. */
#if defined(__GNUC__) || defined(__clang__)
#define WW_MUST_USE __attribute__((warn_unused_result))
#else
#define WW_MUST_USE
#endif

/* What comes back. */
#define WW_DONE 0u            /* done */
#define WW_BAD_ROLE 1u        /* role is not 0 or 1 */
#define WW_BAD_SYMBOL_RATE 2u /* s is above 5 */
#define WW_BAD_RATE 3u        /* n is outside the range of s */
#define WW_BAD_SHAPING 4u     /* shaping is not 0 or 1 */
#define WW_UNSTATED_MARK 5u   /* mark is not 0 or 1: nobody has said what the far end can do */
#define WW_NO_LARGE 6u        /* n is 13 or 14 and mark is 0: the far end has no large constellation (note to Table 15) */
#define WW_BAD_STATE 7u       /* the register is 2^23 or more, or Z is above 3 */
#define WW_BAD_LENGTH 8u      /* the length of a slice is not the exact one */
#define WW_BAD_BIT 9u         /* a byte that is to be sent, or was received, as a bit is above 1 */
#define WW_BAD_LABEL 10u      /* a ring not below M, a 2D label not below M*2^q, Z above 3, I1 above 1 */
#define WW_BAD_SET 11u        /* rings whose number is 2^K or more, or 2^(K-1) or more in a low frame with b above 12 */
#define WW_BAD_STEP 12u       /* reader: the Z steps give I3 = 1 where the frame carries none (clause 9.3.2) */
#define WW_BAD_COUNTS 13u     /* K is above 31, M is not 1 to 18, or 2^K is above M^8 */
#define WW_BAD_NUMBER 14u     /* the number to be mapped is not below 2^K */
#define WW_BAD_SYNC 16u       /* a bit of fill or sync, or a start bit, is not the one that always stands there */
#define WW_BAD_CRC 17u        /* the CRC is not that of the fields: the sequence was damaged on its way */
#define WW_BAD_FIELD 18u      /* a field is out of its range, or is more than its bits can hold */

/* Every refusal, in the one order in which each call tests for its own. X is a macro that takes the name of one. */
#define WW_REFUSALS_IN_ORDER(X) \
    X(WW_BAD_ROLE) \
    X(WW_BAD_SYMBOL_RATE) \
    X(WW_BAD_RATE) \
    X(WW_BAD_SHAPING) \
    X(WW_UNSTATED_MARK) \
    X(WW_NO_LARGE) \
    X(WW_BAD_STATE) \
    X(WW_BAD_COUNTS) \
    X(WW_BAD_LENGTH) \
    X(WW_BAD_BIT) \
    X(WW_BAD_LABEL) \
    X(WW_BAD_SET) \
    X(WW_BAD_STEP) \
    X(WW_BAD_NUMBER) \
    X(WW_BAD_SYNC) \
    X(WW_BAD_CRC) \
    X(WW_BAD_FIELD)

/* Exact lengths in bytes. Each has a getter beside it, for languages that cannot read a macro. */
#define WW_PARAMETERS_BYTES 32     /* answer of ww_parameters */
#define WW_RINGS_BYTES 8           /* rings of ww_map and ww_rank, one to a byte */
#define WW_RANK_BYTES 4            /* answer of ww_rank */
#define WW_START_BYTES 28          /* answer of ww_start and ww_short_start */
#define WW_WRITE_BYTES 32          /* answer of ww_write */
#define WW_READ_BYTES 32           /* answer of ww_read */
#define WW_LABEL_BYTES 2           /* one label, low byte first */
#define WW_INFO0_BITS 49           /* bits of an INFO0 sequence, one to a byte, bit 0 first */
#define WW_INFO0_BYTES 56          /* fields of ww_info0_read and ww_info0_write */
#define WW_INFO1C_BITS 109         /* bits of an INFO1c sequence, one to a byte, bit 0 first */
#define WW_INFO1C_BYTES 88         /* fields of ww_info1c_write: the report's first bytes */
#define WW_INFO1C_REPORT_BYTES 100 /* report of ww_info1c_read: the fields, and then the reading */
#define WW_JP_BITS 72              /* bits of a Jp sequence, one to a byte, bit 0 first */
#define WW_JP_BYTES 20             /* answer of ww_jp_read */

/* The most that a data frame has, over all settings. The exact lengths are N and 32*P, for the N and P of ww_parameters. */
#define WW_MAX_BITS 1248        /* bits, one to a byte: s 4, n 13 */
#define WW_MAX_LABELS_BYTES 512 /* labels: s 4, whose P is 16 */

static inline size_t ww_parameters_bytes(void) { return WW_PARAMETERS_BYTES; }
static inline size_t ww_rings_bytes(void) { return WW_RINGS_BYTES; }
static inline size_t ww_rank_bytes(void) { return WW_RANK_BYTES; }
static inline size_t ww_start_bytes(void) { return WW_START_BYTES; }
static inline size_t ww_write_bytes(void) { return WW_WRITE_BYTES; }
static inline size_t ww_read_bytes(void) { return WW_READ_BYTES; }
static inline size_t ww_label_bytes(void) { return WW_LABEL_BYTES; }
static inline size_t ww_info0_bits(void) { return WW_INFO0_BITS; }
static inline size_t ww_info0_bytes(void) { return WW_INFO0_BYTES; }
static inline size_t ww_info1c_bits(void) { return WW_INFO1C_BITS; }
static inline size_t ww_info1c_bytes(void) { return WW_INFO1C_BYTES; }
static inline size_t ww_info1c_report_bytes(void) { return WW_INFO1C_REPORT_BYTES; }
static inline size_t ww_jp_bits(void) { return WW_JP_BITS; }
static inline size_t ww_jp_bytes(void) { return WW_JP_BYTES; }
static inline size_t ww_max_bits(void) { return WW_MAX_BITS; }
static inline size_t ww_max_labels_bytes(void) { return WW_MAX_LABELS_BYTES; }

/* Places of the numbers in the answer of ww_parameters. */
#define WW_PARAMETERS_N 0 /* bits in a data frame */
#define WW_PARAMETERS_P 1 /* mapping frames in a data frame */
#define WW_PARAMETERS_B 2 /* bits in a high mapping frame; a low one has b - 1 */
#define WW_PARAMETERS_R 3 /* high mapping frames in a data frame */
#define WW_PARAMETERS_K 4 /* bits for the shell mapper */
#define WW_PARAMETERS_Q 5 /* bits of a 2D label below its ring */
#define WW_PARAMETERS_M 6 /* rings */
#define WW_PARAMETERS_L 7 /* points of the constellation: 4*M*2^q */

/* Places of the state's numbers: as they stand in the answer of a start. Writer and reader put N first and the state behind. */
#define WW_STATE_ROLE 0
#define WW_STATE_S 1
#define WW_STATE_N 2
#define WW_STATE_SHAPING 3
#define WW_STATE_MARK 4
#define WW_STATE_REGISTER 5
#define WW_STATE_Z 6
#define WW_STATE_NUMBERS 7    /* in a state */
#define WW_SETTINGS_NUMBERS 5 /* of them the settings, which stand first */
#define WW_NEXT_BITS 0  /* in the answers of ww_write and ww_read: N */
#define WW_NEXT_STATE 1 /* in the answers of ww_write and ww_read: the next state's first number */

/* Places of the fields of INFO0, in the order of Table 14, and the bit of each. */
#define WW_INFO0_SUPPORT_2743 0  /* bit 12: 1 where the symbol rate 2743 is supported */
#define WW_INFO0_SUPPORT_2800 1  /* bit 13: 2800 */
#define WW_INFO0_SUPPORT_3429 2  /* bit 14: 3429 */
#define WW_INFO0_LOW_3000 3      /* bit 15: 1 where it can send at the low carrier with 3000 symbols a second */
#define WW_INFO0_HIGH_3000 4     /* bit 16: at the high carrier with 3000 */
#define WW_INFO0_LOW_3200 5      /* bit 17: at the low carrier with 3200 */
#define WW_INFO0_HIGH_3200 6     /* bit 18: at the high carrier with 3200 */
#define WW_INFO0_ALLOWED_3429 7  /* bit 19: 0 where sending with 3429 is disabled */
#define WW_INFO0_REDUCTION 8     /* bit 20: 1 where it can reduce its power below the nominal one */
#define WW_INFO0_DIFFERENCE 9    /* bits 21 to 23: by how many steps the two symbol rates may differ, 0 to 5 */
#define WW_INFO0_CME 10          /* bit 24: 1 from a CME modem */
#define WW_INFO0_MARK 11         /* bit 25: 1 where it takes constellations of up to 1664 points. This is the mark */
#define WW_INFO0_CLOCK 12        /* bits 26 and 27: transmit clock, 0 internal, 1 synchronised to receive, 2 external */
#define WW_INFO0_ACKNOWLEDGED 13 /* bit 28: 1 acknowledges an INFO0 that was received well, in error recovery */
#define WW_INFO0_FIELDS 14       /* of them there are so many */

/*
 * Places of the fields of INFO1c, in the order of Table 15. The call modem sends it: the powers and the blocks are for the
 * answer modem's sending, MD is the call modem's own. A block stands for each symbol rate, and s is 0 to 5 as in the
 * settings.
 */
#define WW_INFO1C_POWER 0                /* bits 12 to 14: least power reduction, 0 to 7 dB */
#define WW_INFO1C_EXTRA_POWER 1          /* bits 15 to 17: how much more would be accepted, 0 to 7 dB */
#define WW_INFO1C_MD 2                   /* bits 18 to 24: length of the signal MD in units of 35 ms, 0 to 127 */
#define WW_INFO1C_CARRIER(s) (3 + 3 * (s)) /* bit 25 + 9*s: 1 high carrier, 0 low */
#define WW_INFO1C_FILTER(s) (4 + 3 * (s))  /* bits 26 + 9*s to 29 + 9*s: pre-emphasis filter, 0 to 10 (Tables 3 and 4) */
#define WW_INFO1C_RATE(s) (5 + 3 * (s))    /* bits 30 + 9*s to 33 + 9*s: highest data rate, the n of the settings, 0 to 14;
                                              0: this symbol rate can't be used */
#define WW_INFO1C_COUNT 21               /* bits 79 to 88: frequency offset in steps of 0.02 Hz, signed, -511 to 511; -512:
                                            it could not be measured */
#define WW_INFO1C_FIELDS 22              /* of them there are so many */
#define WW_INFO1C_READING 22             /* in the report, behind the fields: 1 where there is a reading of the offset in
                                            hertz, 0 where there is none; ww_info1c_hertz takes it out */

/*
 * Places of the numbers in the answer of ww_jp_read, in the order of V.92's Table 22, which is also the order in which
 * ww_jp_write takes them. The digital modem sends Jp; both sizes are for the signals CPu, E2u, SUVu and TRN2u of the analogue
 * one, and are 0 for four points and 1 for eight.
 */
#define WW_JP_FRACTION 0      /* bits 18 to 33: by how much of a symbol the signal Su, inverted, is to be extended, in
                                 65,536ths, 0 to 65535 */
#define WW_JP_TRAINING 1      /* bit 48: size of the constellation in the training sequences */
#define WW_JP_RENEGOTIATION 2 /* bit 49: size of the constellation in rate renegotiations */
#define WW_JP_FIELDS 3        /* of them there are so many */
#define WW_JP_PART 3          /* behind them: the fraction as a part of a symbol; ww_jp_part takes it out */

/* The numbers of a state, and the settings alone, as the arguments of a call. */
#define WW_STATE(x) (x)[0], (x)[1], (x)[2], (x)[3], (x)[4], (x)[5], (x)[6]
#define WW_SETTINGS(x) (x)[0], (x)[1], (x)[2], (x)[3], (x)[4]

/* The number at a place of an answer. The place must be within the answer. */
static inline uint32_t ww_number(const uint8_t *answer, size_t place)
{
    const uint8_t *from = answer + 4 * place;
    return (uint32_t)from[0] | (uint32_t)from[1] << 8 | (uint32_t)from[2] << 16 | (uint32_t)from[3] << 24;
}

/* The same where the number may be negative. */
static inline int32_t ww_signed_number(const uint8_t *answer, size_t place)
{
    const uint32_t number = ww_number(answer, place);
    return number <= 0x7fffffffu ? (int32_t)number : -1 - (int32_t)(0xffffffffu - number);
}

/*
 * The double that stands in an answer at a place and the one behind it: the lower half of its eight bytes, then the upper.
 * Both places must be within the answer.
 */
static inline double ww_double(const uint8_t *answer, size_t place)
{
    const uint64_t low = ww_number(answer, place), high = ww_number(answer, place + 1);
    const uint64_t eight_bytes = high << 32 | low;
    double number;
    memcpy(&number, &eight_bytes, sizeof number);
    return number;
}

/* Does not compile where a double has not eight bytes. */
typedef char ww_a_double_has_eight_bytes[sizeof(double) == 8 ? 1 : -1];

/*
 * Puts a number at a place of fields that are handed in. One that 32 bits can't hold is put as 2^31 - 1, which no field
 * may be, signed or not: so it is not in range afterwards. A number that may be negative is put by ww_put_signed_number;
 * what ww_number took out of such a place can be put back here as well.
 */
static inline void ww_put_number(uint8_t *fields, size_t place, uint64_t number)
{
    const uint64_t put = number > 0xffffffffu ? 0x7fffffffu : number;
    uint8_t *to = fields + 4 * place;
    to[0] = (uint8_t)(put & 255);
    to[1] = (uint8_t)(put >> 8 & 255);
    to[2] = (uint8_t)(put >> 16 & 255);
    to[3] = (uint8_t)(put >> 24 & 255);
}

/* The same where the number may be negative. What is below -2^31 or above 2^31 - 1 is put as 2^31 - 1. */
static inline void ww_put_signed_number(uint8_t *fields, size_t place, int64_t number)
{
    const int fits = number >= -0x7fffffff - 1 && number <= 0x7fffffff;
    ww_put_number(fields, place, fits ? (uint64_t)number & 0xffffffffu : 0x7fffffffu);
}

/* The label at a place of the labels. For 4D symbol j of mapping frame i the places are 16*i + 4*j and the three behind it. */
static inline uint32_t ww_label(const uint8_t *labels, size_t place)
{
    return (uint32_t)labels[2 * place] | (uint32_t)labels[2 * place + 1] << 8;
}

/*
 * The settings, the same numbers at every call that takes them:
 *   role      0 call modem, 1 answer modem: which polynomial of clause 7. It is the sending end's, in the reader too
 *   s         symbol rate, 0 to 5: 2400, 2743, 2800, 3000, 3200, 3429 (Table 7)
 *   n         data rate in steps of 2,400 bit/s: 1 to 9 where s is 0; from 2 up to 11, 11, 12, 13 and 14 where s is 1 to 5
 *   shaping   0 minimum M, 1 expanded M (Table 10)
 *   mark      0 the far end has no large constellation (of up to 1664 points), 1 it has, any other number: nobody has said
 *
 * Refused for them: 1, 2, 3, 4, 5, 6.
 */

/*
 * ww_parameters: the numbers that follow from the settings (clauses 8.2, 9.2 and 9.3).
 *
 * Owed: answer of WW_PARAMETERS_BYTES.
 * Given: N P b r K q M L.
 * Refused: for the settings, then 8.
 */
uint32_t ww_parameters(uint64_t role, uint64_t s, uint64_t n, uint64_t shaping, uint64_t mark,
                       uint8_t *answer, size_t answer_length) WW_MUST_USE;

/*
 * ww_map: the eight rings m1 to m8 of a number, each below M (clause 9.4). k and m are K and M.
 *
 * Owed: rings of WW_RINGS_BYTES.
 * Given: the rings, one to a byte, m1 first.
 * Refused: 13, then 8, then 14.
 */
uint32_t ww_map(uint64_t k, uint64_t m, uint64_t number, uint8_t *rings, size_t rings_length) WW_MUST_USE;

/*
 * ww_rank: the number of eight rings: ww_map's inverse. The rings are only read.
 *
 * Owed: rings of WW_RINGS_BYTES and answer of WW_RANK_BYTES.
 * Given: the number, which is below 2^K.
 * Refused: 13, then 8, then 10 (a ring not below M), then 11 (the number is 2^K or more).
 */
uint32_t ww_rank(uint64_t k, uint64_t m, const uint8_t *rings, size_t rings_length,
                 uint8_t *answer, size_t answer_length) WW_MUST_USE;

/*
 * ww_start: checks the settings, the register and Z, and gives the first state.
 *
 * reg is the scrambler's register: its bit of weight 2^(k-1) is the output k places back (clause 7). z is the
 * differential coder's last output (clause 9.5).
 *
 * Owed: answer of WW_START_BYTES.
 * Given: role s n shaping mark register Z.
 * Refused: for the settings, then 7, then 8.
 */
uint32_t ww_start(uint64_t role, uint64_t s, uint64_t n, uint64_t shaping, uint64_t mark, uint64_t reg, uint64_t z,
                  uint8_t *answer, size_t answer_length) WW_MUST_USE;

/*
 * ww_short_start: ww_start with shaping 0, register 0 and Z 0. The mark has no default: it must be stated here too.
 *
 * Owed: answer of WW_START_BYTES.
 * Given: role s n 0 mark 0 0.
 * Refused: for the settings but never 4, then 8.
 */
uint32_t ww_short_start(uint64_t role, uint64_t s, uint64_t n, uint64_t mark,
                        uint8_t *answer, size_t answer_length) WW_MUST_USE;

/*
 * ww_write: the N bits of one data frame become 16*P labels (clauses 7 to 9.5).
 *
 * The numbers are the state. For each of the P mapping frames, and in it for each of the four 4D symbols, four labels
 * are written: 2^q*ring + q bits for the first 2D symbol, the same for the second, Z, and I1. The bits are only read.
 *
 * Owed: bits of N bytes, each 0 or 1; labels of 32*P bytes; answer of WW_WRITE_BYTES.
 * Given: the labels, and in answer N and then the next state: role s n shaping mark register Z.
 * Refused: for the settings, then 7, then 8 (any of the lengths), then 9.
 */
uint32_t ww_write(uint64_t role, uint64_t s, uint64_t n, uint64_t shaping, uint64_t mark, uint64_t reg, uint64_t z,
                  const uint8_t *bits, size_t bits_length, uint8_t *labels, size_t labels_length,
                  uint8_t *answer, size_t answer_length) WW_MUST_USE;

/*
 * ww_read: the 16*P labels of one data frame become its N bits: ww_write's inverse. It accepts exactly what ww_write
 * can write.
 *
 * The settings are those of the end that SENT the labels: role is the sending end's, and mark then speaks of the
 * receiving end, which is the one that reads here. The register holds the last 23 scrambled bits that were received, z
 * the last Z. The labels are only read, and what the bits held before is not looked at.
 *
 * Owed: labels of 32*P bytes; bits of N bytes; answer of WW_READ_BYTES.
 * Given: the bits, one to a byte, and in answer N and then the next state: role s n shaping mark register Z.
 * Refused: for the settings, then 7, then 8 (any of the lengths, an odd one of labels too), then 10, 11 and 12. All
 * labels of the data frame are tested for 10 before any for 11, and all for 11 before any for 12.
 */
uint32_t ww_read(uint64_t role, uint64_t s, uint64_t n, uint64_t shaping, uint64_t mark, uint64_t reg, uint64_t z,
                 const uint8_t *labels, size_t labels_length, uint8_t *bits, size_t bits_length,
                 uint8_t *answer, size_t answer_length) WW_MUST_USE;

/*
 * ww_info0_read: the fields of an INFO0 sequence that was received (clause 10.1.2.3, Table 14). The bits are only read.
 *
 * A mark that comes from here is 0 or 1, so settings that take it are never refused with 5.
 *
 * Owed: bits of WW_INFO0_BITS, in the order in which they were received, each 0 or 1; fields of WW_INFO0_BYTES.
 * Given: the fields, in the order of the WW_INFO0_.. places.
 * Refused: 8 (either length), then 9 (anywhere in the sequence), then 16 (either fill, or sync), then 17, then 18
 * (bits 21 to 23 are above 5, or bits 26 and 27 are 3).
 */
uint32_t ww_info0_read(const uint8_t *bits, size_t bits_length, uint8_t *fields, size_t fields_length) WW_MUST_USE;

/*
 * ww_info0_write: the INFO0 sequence of some fields: ww_info0_read's inverse. The fields are only read.
 *
 * Owed: fields of WW_INFO0_BYTES; bits of WW_INFO0_BITS.
 * Given: the bits, one to a byte, in the order in which they are to be sent: fill, sync, fields, CRC, fill.
 * Refused: 8 (either length), then 18.
 */
uint32_t ww_info0_write(const uint8_t *fields, size_t fields_length, uint8_t *bits, size_t bits_length) WW_MUST_USE;

/*
 * ww_info1c_read: what an INFO1c sequence that was received says (clause 10.1.2.3, Table 15). The bits are only read.
 *
 * The note to Table 15 is not tested here, by which a rate above 12 is proposed only where the other end supports 1664
 * points: that stands in the other end's INFO0. Settings with such a rate need the mark, and are refused with 6 without.
 *
 * Owed: bits of WW_INFO1C_BITS, in the order in which they were received, each 0 or 1; report of WW_INFO1C_REPORT_BYTES.
 * Given: the fields, in the order of the WW_INFO1C_.. places; behind them 1 and the offset in hertz, a double, which is
 * the count divided once by 50; or, where the count is -512, 0 and eight bytes of 0.
 * Refused: 8 (either length), then 9 (anywhere in the sequence), then 16 (either fill, or sync), then 17, then 18 (a
 * filter is above 10, or a rate is 15).
 */
uint32_t ww_info1c_read(const uint8_t *bits, size_t bits_length, uint8_t *report, size_t report_length) WW_MUST_USE;

/*
 * ww_info1c_write: the INFO1c sequence of some fields: ww_info1c_read's inverse. The fields are only read. They are the
 * report's first bytes, so the count is sent as it is and the reading is not looked at.
 *
 * Owed: fields of WW_INFO1C_BYTES; bits of WW_INFO1C_BITS.
 * Given: the bits, one to a byte, in the order in which they are to be sent: fill, sync, fields, CRC, fill.
 * Refused: 8 (either length), then 18.
 */
uint32_t ww_info1c_write(const uint8_t *fields, size_t fields_length, uint8_t *bits, size_t bits_length) WW_MUST_USE;

/*
 * The reading of a report that ww_info1c_read gave: 1 where there is one, and it is then put at hertz; 0 where there is
 * none, and what stands at hertz is then left. So there are no hertz without looking whether there are any.
 */
static inline WW_MUST_USE int ww_info1c_hertz(const uint8_t *report, double *hertz)
{
    if (ww_number(report, WW_INFO1C_READING) != 1) {
        return 0;
    }
    *hertz = ww_double(report, WW_INFO1C_READING + 1);
    return 1;
}

/*
 * ww_jp_read: what a Jp sequence that was received says (V.92, clause 8.6.3, Table 22). The bits are only read.
 *
 * The reserved bits, 35 to 46 and 50, must be bits (9) and are under the CRC; otherwise they are not looked at. Bit 47 is 1
 * in a Jp, and 0 in the sequence Jd, which is as long and says something else: it is not read here.
 *
 * Owed: bits of WW_JP_BITS, in the order in which they were received, each 0 or 1; answer of WW_JP_BYTES.
 * Given: the fraction and both sizes, in the order of the WW_JP_.. places; behind them the fraction over 65,536, a double,
 * which is exact.
 * Refused: 8 (either length), then 9 (anywhere in the sequence), then 16 (sync, fill, or a start bit), then 17, then 18
 * (bit 47 is 0).
 */
uint32_t ww_jp_read(const uint8_t *bits, size_t bits_length, uint8_t *answer, size_t answer_length) WW_MUST_USE;

/*
 * ww_jp_write: the Jp sequence of a fraction and both sizes, in the order of the WW_JP_.. places. What it gives is read by
 * ww_jp_read with the same three numbers. Written again, what was read gives the same bits exactly where its reserved bits
 * were 0.
 *
 * Owed: bits of WW_JP_BITS.
 * Given: the bits, one to a byte, in the order in which they are to be sent; the reserved ones are 0.
 * Refused: 8, then 18 (the fraction is above 65535, or a size is above 1).
 */
uint32_t ww_jp_write(uint64_t fraction, uint64_t training, uint64_t renegotiation,
                     uint8_t *bits, size_t bits_length) WW_MUST_USE;

/* The fraction of an answer that ww_jp_read gave as a part of a symbol: from 0 on, and below 1. */
static inline double ww_jp_part(const uint8_t *answer)
{
    return ww_double(answer, WW_JP_PART);
}

#ifdef __cplusplus
}
#endif

#endif
