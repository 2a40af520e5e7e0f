/* The integer half of a CRAY X-MP: a start, a step, a turn, a run and a pair
 * run; and its assembly language CAL: a text assembled, parcels listed.
 *
 * Link with libpulxarrid.a. It calls memcpy and memset, allocates nothing, keeps
 * nothing between calls and may be called from several threads at once, each
 * with its own processors and memory. A call on processors takes at most 1 KB of
 * stack, a text assembled or parcels listed at most 6 KB.
 *
 * The caller lends every array, and processors are worked on where they stand.
 * No pointer may be null, not even with a length of 0, and no two arrays of one
 * call may overlap. Whatever numbers they hold, each call has one result;
 * pulxarrid(3) says which.
 */
#ifndef PULXARRID_H
#define PULXARRID_H

#include <stddef.h>
#include <stdint.h>

#ifdef __cplusplus
extern "C" {
#endif

/* The words of a processor, and the place of each register among them. An
 * array of registers begins at its place; element e of V register i is at
 * PULXARRID_V + 64 * i + e. */
#define PULXARRID_STATE_WORDS 672

/* The words of two processors, those of the first before those of the second,
 * which begin at PULXARRID_STATE_WORDS. */
#define PULXARRID_PAIR_WORDS 1344

enum pulxarrid_place {
    PULXARRID_P = 0,          /* parcel address of the next instruction, 24 bits */
    PULXARRID_XA = 1,         /* package of the next exchange, 8 bits */
    PULXARRID_VL = 2,         /* vector length, 1 to 64 */
    PULXARRID_VM = 3,         /* vector mask, element 0 the highest bit */
    PULXARRID_IBA = 4,        /* instruction base, 17 bits, times 32 */
    PULXARRID_ILA = 5,        /* instruction limit, 17 bits, times 32 */
    PULXARRID_DBA = 6,        /* data base, 17 bits, times 32 */
    PULXARRID_DLA = 7,        /* data limit, 17 bits, times 32 */
    PULXARRID_MM = 8,         /* modes, each 0 or 1: monitor */
    PULXARRID_IOR = 9,        /*   interrupt on operand range */
    PULXARRID_IFP = 10,       /*   interrupt on floating point */
    PULXARRID_FPS = 11,       /*   floating point status */
    PULXARRID_BDM = 12,       /*   bidirectional memory */
    PULXARRID_PS = 13,        /* program state, 0 or 1 */
    PULXARRID_CLN = 14,       /* cluster number, 0 to 3 */
    PULXARRID_PROCESSOR = 15, /* processor number, 0 or 1 */
    PULXARRID_A = 16,         /* A0 to A7, 24 bits each */
    PULXARRID_S = 24,         /* S0 to S7 */
    PULXARRID_B = 32,         /* B00 to B77, 24 bits each */
    PULXARRID_T = 96,         /* T00 to T77 */
    PULXARRID_V = 160         /* V0 to V7, 64 elements each */
};

/* How many numbers a step, a turn or a run, and a pair run write.
 * Version 0.1 (2 to pkg-config) wrote fewer: 2, 3 and 3. */
#define PULXARRID_ANSWER_NUMBERS 4
#define PULXARRID_REPORT_NUMBERS 5
#define PULXARRID_PAIR_REPORT_NUMBERS 7

/* Limits of what a call accepts. */
#define PULXARRID_MEMORY_LEAST 4096
#define PULXARRID_MEMORY_MOST 4194304
#define PULXARRID_PACKAGE_MOST 255
#define PULXARRID_BUDGET_MOST 1000000
#define PULXARRID_SCHEDULE_MOST 65536

/* The bytes of the longest line of CAL, its newline among them. So a listing
 * always has room in 16 bytes for each parcel. A parcel takes at least two
 * bytes of text, so that half as many parcels as the text has bytes always are
 * room enough to assemble it. */
#define PULXARRID_LINE_MOST 16

/* What each function returns: 0, or the number of its refusal. A refused call
 * alters nothing, but that a 10 reports the line. The checks are made in this
 * order, where they apply. */
enum pulxarrid_refusal {
    PULXARRID_DONE = 0,
    PULXARRID_BAD_MEMORY = 1,          /* fewer than 4,096 or more than 4,194,304 words */
    PULXARRID_BAD_PACKAGE = 2,         /* package over 255 */
    PULXARRID_BAD_BUDGET = 3,          /* budget over 1,000,000 */
    PULXARRID_BAD_PROCESSOR = 4,       /* number not 0 or 1; in a pair run, first not 0 or second not 1 */
    PULXARRID_BAD_SCHEDULE_LENGTH = 5, /* schedule over 65,536 bytes */
    PULXARRID_BAD_SCHEDULE_BYTE = 6,   /* a byte over 1 */
    PULXARRID_BAD_STATE = 7,           /* a number too wide for its register, or VL not 1 to 64 */
    PULXARRID_BAD_LINE = 10,           /* a line of a text cannot be assembled */
    PULXARRID_NO_ROOM = 18             /* more parcels or bytes than there is room for */
};

/* The kind of an answer or an ending, and its value. 4 is free for a fifth
 * answer to come. */
enum pulxarrid_kind {
    PULXARRID_STEPPED = 0,       /* of a step; value 0 */
    PULXARRID_BUDGET_SPENT = 0,  /* of a run; value 0 */
    PULXARRID_EXCHANGED = 1,     /* value: the flags */
    PULXARRID_NOT_HELD = 2,      /* value: P. The machine does not hold the code there */
    PULXARRID_MONITOR_FETCH = 3, /* value: P. A parcel outside, in monitor mode */
    PULXARRID_NOTHING = 15       /* of a turn or a pair run that took no step; value 0 */
};

/* The flags of an exchange. */
enum pulxarrid_flag {
    PULXARRID_NORMAL_EXIT = 1,
    PULXARRID_ERROR_EXIT = 2,
    PULXARRID_PROGRAM_RANGE = 4,
    PULXARRID_OPERAND_RANGE = 8
};

/* Why an operand was outside of the data field: the first of these tests that
 * holds of its word, in this order. The element is its number among the operands
 * of the instruction, counted from 0: 0 for 10h to 13h, up to 126 for 034 to 037,
 * up to 63 for 176 and 177. A step tells of its first operand outside, in either
 * mode and whether IOR is set or not. A parcel outside is no operand. */
enum pulxarrid_outside {
    PULXARRID_INSIDE = 0,       /* no operand was outside; element 0 */
    PULXARRID_BELOW_BASE = 1,   /* below DBA times 32 */
    PULXARRID_OVER_LIMIT = 2,   /* at or over DLA times 32 */
    PULXARRID_BEYOND_MEMORY = 3 /* at or past the end of memory */
};

/* Fills state with a processor loaded from a package: words 16 * package to
 * 16 * package + 15 of memory. B, T, V and VM are 0. */
uint64_t pulxarrid_start(uint64_t state[PULXARRID_STATE_WORDS],
                         const uint64_t *memory, size_t words,
                         uint64_t package, uint64_t processor);

/* Takes one step. answer: its kind, its value, outside and element. */
uint64_t pulxarrid_step(uint64_t state[PULXARRID_STATE_WORDS],
                        uint64_t *memory, size_t words,
                        uint64_t answer[PULXARRID_ANSWER_NUMBERS]);

/* Takes steps up to and including the first that does not answer stepped, at
 * most budget. report: the kind of the last answer, its value, the number of
 * steps that stepped or exchanged, and outside and element of the last step that
 * had an operand outside. */
uint64_t pulxarrid_turn(uint64_t state[PULXARRID_STATE_WORDS],
                        uint64_t *memory, size_t words,
                        uint64_t budget,
                        uint64_t report[PULXARRID_REPORT_NUMBERS]);

/* Takes steps until budget is spent or one answers not held or monitor fetch.
 * report: the kind of the ending, its value, the number of steps that stepped or
 * exchanged, and outside and element of the last step that had an operand
 * outside. */
uint64_t pulxarrid_run(uint64_t state[PULXARRID_STATE_WORDS],
                       uint64_t *memory, size_t words,
                       uint64_t budget,
                       uint64_t report[PULXARRID_REPORT_NUMBERS]);

/* Takes a step for each byte of schedule, 0 for the first processor and 1 for
 * the second, up to and including the first that does not answer stepped.
 * report: the kind of the last answer, its value, the number of steps that
 * stepped or exchanged, and outside and element of the first processor's last
 * step that had an operand outside, then those of the second's. */
uint64_t pulxarrid_pair_run(uint64_t pair[PULXARRID_PAIR_WORDS],
                            uint64_t *memory, size_t words,
                            const uint8_t *schedule, size_t turns,
                            uint64_t report[PULXARRID_PAIR_REPORT_NUMBERS]);

/* Assembles a text of CAL, each line of it ended by a newline, into at most
 * room parcels. report: how many were written or, refused with 10, the first
 * bad line, counted from 1; refused with 18 it stays. Parcels past those
 * written stay. */
uint64_t pulxarrid_assemble(const uint8_t *text, size_t bytes,
                            uint16_t *parcels, size_t room,
                            uint64_t report[1]);

/* Lists parcels as CAL, in at most room bytes. report: how many were written;
 * refused, it stays. Bytes past those written stay: no 0 ends the text. */
uint64_t pulxarrid_list(const uint16_t *parcels, size_t count,
                        uint8_t *text, size_t room,
                        uint64_t report[1]);

#ifdef __cplusplus
}
#endif

#endif
