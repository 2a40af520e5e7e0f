/* Calls the library from C: places, answers, operands outside, refusals, memories
 * of every size; texts assembled and parcels listed. */
#include "pulxarrid.h"

#include <stdio.h>
#include <stdlib.h>
#include <string.h>

static int passed, failed;

static void check(int good, const char *what)
{
    if (good) {
        passed++;
    } else {
        failed++;
        printf("failed: %s\n", what);
    }
}

/* A call's number, and the numbers that it wrote. */
static int is(uint64_t number, const uint64_t *got, uint64_t kind, uint64_t value)
{
    return number == 0 && got[0] == kind && got[1] == value;
}

/* Why an operand was outside, and its element. */
static int tells(const uint64_t *got, uint64_t outside, uint64_t element)
{
    return got[0] == outside && got[1] == element;
}

static uint64_t memory[PULXARRID_MEMORY_LEAST];
/* Two processors. A call for one of them is lent the first, so that a write past
 * its words is seen in the second. */
static uint64_t pair[PULXARRID_PAIR_WORDS];
static uint64_t *const state = pair;
static uint64_t *const other = pair + PULXARRID_STATE_WORDS;
#define STATE_BYTES (PULXARRID_STATE_WORDS * sizeof(uint64_t))
static uint64_t answer[PULXARRID_ANSWER_NUMBERS];
/* That of a pair run is the longest. */
static uint64_t report[PULXARRID_PAIR_REPORT_NUMBERS];

/* A package with fields for code and data, in words, and modes. */
static void put_package(uint64_t *m, unsigned number, uint64_t code, uint64_t code_end,
                        uint64_t data, uint64_t data_end, uint64_t modes, uint64_t xa)
{
    uint64_t *at = m + 16 * number;
    memset(at, 0, 16 * sizeof *at);
    at[1] = code / 32 << 29;
    at[2] = code_end / 32 << 29 | modes << 24;
    at[3] = xa << 40;
    at[4] = data / 32 << 29;
    at[5] = data_end / 32 << 29;
}

/* A word of four parcels. */
static uint64_t word(uint64_t first, uint64_t second, uint64_t third, uint64_t fourth)
{
    return first << 48 | second << 32 | third << 16 | fourth;
}

/* The first example: two numbers are added and the sum is stored at 0x800. */
static void put_sum(void)
{
    memset(memory, 0, sizeof memory);
    put_package(memory, 0, 0x400, 0x800, 0x800, 0xC00, 0, 0);
    memory[0x400] = UINT64_C(0x2445248730CA90C0);
}

static void places(void)
{
    check(PULXARRID_STATE_WORDS == 672, "672 words");
    check(PULXARRID_A - PULXARRID_PROCESSOR == 1, "A follows the processor number");
    check(PULXARRID_S - PULXARRID_A == 8, "eight A");
    check(PULXARRID_B - PULXARRID_S == 8, "eight S");
    check(PULXARRID_T - PULXARRID_B == 64, "64 B");
    check(PULXARRID_V - PULXARRID_T == 64, "64 T");
    check(PULXARRID_STATE_WORDS - PULXARRID_V == 8 * 64, "eight V of 64");
    check(PULXARRID_PAIR_WORDS == 2 * PULXARRID_STATE_WORDS, "a pair is two");
}

/* Each register of a package goes to its place. */
static void start(void)
{
    uint64_t wanted[PULXARRID_STATE_WORDS] = {0};
    uint64_t before[PULXARRID_MEMORY_LEAST];
    uint64_t *package = memory + 16 * 255;
    unsigned n;

    memset(memory, 0xFF, sizeof memory);
    for (n = 0; n < 8; n++) {
        package[n] = 0xFFFF000000000000 | (0x100000 + n);
        package[8 + n] = 0x8000000000000000 + n;
        wanted[PULXARRID_A + n] = 0x100000 + n;
        wanted[PULXARRID_S + n] = 0x8000000000000000 + n;
    }
    package[0] |= UINT64_C(0xABCDEF) << 24;
    package[1] |= UINT64_C(0x1ABCD) << 29;
    package[2] |= UINT64_C(0x1BCDE) << 29 | UINT64_C(0x15) << 24;
    package[3] |= UINT64_C(0xA5) << 40 | UINT64_C(65) << 33 | UINT64_C(0x1FF) << 24;
    package[4] |= UINT64_C(0x1CDEF) << 29 | UINT64_C(1) << 28 | UINT64_C(2) << 24;
    package[5] |= UINT64_C(0x1DEF0) << 29;
    wanted[PULXARRID_P] = 0xABCDEF;
    wanted[PULXARRID_IBA] = 0x1ABCD;
    wanted[PULXARRID_ILA] = 0x1BCDE;
    wanted[PULXARRID_MM] = 1;
    wanted[PULXARRID_IFP] = 1;
    wanted[PULXARRID_BDM] = 1;
    wanted[PULXARRID_XA] = 0xA5;
    wanted[PULXARRID_VL] = 1;
    wanted[PULXARRID_DBA] = 0x1CDEF;
    wanted[PULXARRID_PS] = 1;
    wanted[PULXARRID_CLN] = 2;
    wanted[PULXARRID_DLA] = 0x1DEF0;
    wanted[PULXARRID_PROCESSOR] = 1;
    memcpy(before, memory, sizeof memory);
    memset(pair, 0xEE, sizeof pair);
    check(pulxarrid_start(state, memory, 4096, 255, 1) == 0, "start");
    check(memcmp(state, wanted, STATE_BYTES) == 0, "start fills each place");
    for (n = 0; n < PULXARRID_STATE_WORDS && other[n] == UINT64_C(0xEEEEEEEEEEEEEEEE); n++)
        ;
    check(n == PULXARRID_STATE_WORDS, "and none past them");
    check(memcmp(memory, before, sizeof memory) == 0, "start only reads");
}

/* Four steps, an exchange that finds nothing to do, and the kinds of answers. */
static void step(void)
{
    put_sum();
    check(pulxarrid_start(state, memory, 4096, 0, 0) == 0, "start of the sum");
    check(state[PULXARRID_VL] == 64, "VL of 0 is 64");
    check(is(pulxarrid_step(state, memory, 4096, answer), answer, PULXARRID_STEPPED, 0), "step 1");
    check(state[PULXARRID_A + 1] == 5 && state[PULXARRID_P] == 1, "A1 is 5");
    check(is(pulxarrid_step(state, memory, 4096, answer), answer, PULXARRID_STEPPED, 0), "step 2");
    check(state[PULXARRID_A + 2] == 7 && state[PULXARRID_P] == 2, "A2 is 7");
    check(is(pulxarrid_step(state, memory, 4096, answer), answer, PULXARRID_STEPPED, 0), "step 3");
    check(state[PULXARRID_A + 3] == 12 && memory[0x800] == 0, "A3 is 12");
    check(is(pulxarrid_step(state, memory, 4096, answer), answer, PULXARRID_STEPPED, 0), "step 4");
    check(memory[0x800] == 12 && state[PULXARRID_P] == 5, "the sum is stored");
    check(is(pulxarrid_step(state, memory, 4096, answer), answer, PULXARRID_EXCHANGED, PULXARRID_ERROR_EXIT),
          "an error exit");
    check(state[PULXARRID_P] == 0 && state[PULXARRID_A + 3] == 0 && memory[3] >> 24 == 0x8002,
          "the package is loaded, and the program saved");

    memory[0x400] = UINT64_C(0x0001000000000000);
    state[PULXARRID_P] = 0;
    check(is(pulxarrid_step(state, memory, 4096, answer), answer, PULXARRID_NOT_HELD, 0), "000001 is not held");
    state[PULXARRID_MM] = 1;
    state[PULXARRID_P] = 0x1000;
    check(is(pulxarrid_step(state, memory, 4096, answer), answer, PULXARRID_MONITOR_FETCH, 0x1000), "a monitor fetch");
    check(state[PULXARRID_P] == 0x1000, "a stop changes nothing");
}

/* Numbers drawn from a seed (splitmix64). */
static uint64_t drawn;

static uint64_t draw(void)
{
    uint64_t z = drawn += UINT64_C(0x9E3779B97F4A7C15);
    z = (z ^ z >> 30) * UINT64_C(0xBF58476D1CE4E5B9);
    z = (z ^ z >> 27) * UINT64_C(0x94D049BB133111EB);
    return z ^ z >> 31;
}

/* Whether a turn does and reports what steps one by one do. */
static int turn_is_steps(uint64_t budget)
{
    static uint64_t twin[PULXARRID_STATE_WORDS], twin_memory[PULXARRID_MEMORY_LEAST];
    uint64_t wanted[PULXARRID_REPORT_NUMBERS] = {PULXARRID_NOTHING}, n;

    memcpy(twin, state, sizeof twin);
    memcpy(twin_memory, memory, sizeof memory);
    for (n = 0; n < budget && (n == 0 || wanted[0] == PULXARRID_STEPPED); n++) {
        if (pulxarrid_step(twin, twin_memory, 4096, answer))
            return 0;
        wanted[0] = answer[0];
        wanted[1] = answer[1];
        wanted[2] += answer[0] == PULXARRID_STEPPED || answer[0] == PULXARRID_EXCHANGED;
        if (answer[2] != PULXARRID_INSIDE)
            memcpy(wanted + 3, answer + 2, 2 * sizeof *answer);
    }
    return pulxarrid_turn(state, memory, 4096, budget, report) == 0 && memcmp(report, wanted, sizeof wanted) == 0
        && memcmp(twin, state, sizeof twin) == 0 && memcmp(twin_memory, memory, sizeof memory) == 0;
}

/* Turns of any length from any words, in fields of four kinds. */
static void any_turns(void)
{
    unsigned seen[PULXARRID_NOTHING + 1] = {0}, causes[PULXARRID_BEYOND_MEMORY + 1] = {0}, good = 0, n, at;

    drawn = 1;
    for (n = 0; n < 3000; n++) {
        for (at = 0; at < PULXARRID_MEMORY_LEAST; at++)
            memory[at] = draw();
        put_package(memory, 0, 0x400, 0x800, 0x800, 0xC00, 0, draw() % 256);
        pulxarrid_start(state, memory, 4096, 0, n % 2);
        state[PULXARRID_MM] = draw() % 2;
        state[PULXARRID_IOR] = draw() % 2;
        state[PULXARRID_DBA] = draw() % 2 ? 0x40 : 0x10000; /* half of all addresses wrap */
        state[PULXARRID_DLA] = draw() % 2 ? 0x60 : 0x1FFFF; /* past the end of memory */
        state[PULXARRID_P] = draw() % 0x1100;
        for (at = PULXARRID_A; at < PULXARRID_A + 8; at++)
            state[at] = draw() >> (40 + draw() % 24);
        good += turn_is_steps(draw() % 8);
        if (report[0] <= PULXARRID_NOTHING)
            seen[report[0]]++;
        if (report[3] <= PULXARRID_BEYOND_MEMORY)
            causes[report[3]]++;
    }
    check(good == 3000, "turns are steps one by one");
    check(seen[PULXARRID_STEPPED] > 20 && seen[PULXARRID_EXCHANGED] > 20 && seen[PULXARRID_NOT_HELD] > 20
          && seen[PULXARRID_MONITOR_FETCH] > 20 && seen[PULXARRID_NOTHING] > 20, "of every kind");
    check(causes[PULXARRID_INSIDE] > 20 && causes[PULXARRID_BELOW_BASE] > 20 && causes[PULXARRID_OVER_LIMIT] > 20
          && causes[PULXARRID_BEYOND_MEMORY] > 20, "with every cause");
}

/* The sum again, in turns. */
static void turn(void)
{
    static uint64_t before[PULXARRID_MEMORY_LEAST], twin[PULXARRID_PAIR_WORDS];

    put_sum();
    pulxarrid_start(state, memory, 4096, 0, 0);
    memcpy(twin, pair, sizeof pair);
    memcpy(before, memory, sizeof memory);
    memset(report, 0xAA, sizeof report);
    check(is(pulxarrid_turn(state, memory, 4096, 0, report), report, PULXARRID_NOTHING, 0) && report[2] == 0,
          "a turn with no budget");
    check(memcmp(twin, pair, sizeof pair) == 0 && memcmp(before, memory, sizeof memory) == 0, "alters nothing");
    check(is(pulxarrid_turn(state, memory, 4096, 3, report), report, PULXARRID_STEPPED, 0) && report[2] == 3,
          "a turn of three steps");
    check(state[PULXARRID_A + 3] == 12 && memory[0x800] == 0, "A3 is 12 after three");
    check(is(pulxarrid_turn(state, memory, 4096, PULXARRID_BUDGET_MOST, report), report, PULXARRID_EXCHANGED, PULXARRID_ERROR_EXIT)
          && report[2] == 2, "a turn ends with an exchange");
    check(memory[0x800] == 12 && state[PULXARRID_P] == 0 && state[PULXARRID_A + 3] == 0, "and takes no step after it");
    memory[0x400] = UINT64_C(0x2445000100000000); /* 022105 A1 5; 000001, not held */
    check(is(pulxarrid_turn(state, memory, 4096, 100, report), report, PULXARRID_NOT_HELD, 1) && report[2] == 1,
          "a turn that stops");
    check(is(pulxarrid_turn(state, memory, 4096, 100, report), report, PULXARRID_NOT_HELD, 1) && report[2] == 0,
          "a turn that stops at once");
    state[PULXARRID_MM] = 1;
    state[PULXARRID_P] = 0x1000;
    check(is(pulxarrid_turn(state, memory, 4096, 1, report), report, PULXARRID_MONITOR_FETCH, 0x1000) && report[2] == 0,
          "a turn with a monitor fetch");
    check(memcmp(twin + PULXARRID_STATE_WORDS, other, STATE_BYTES) == 0, "no turn writes past its processor");

    put_sum();
    memory[0x401] = UINT64_C(0x00000C0000050000); /* 006000 000005: J 5, at parcel 5 */
    pulxarrid_start(state, memory, 4096, 0, 0);
    check(turn_is_steps(4) && turn_is_steps(100000) && report[2] == 100000, "a turn that goes round");
}

static void run(void)
{
    put_sum();
    pulxarrid_start(state, memory, 4096, 0, 0);
    memcpy(other, state, STATE_BYTES);
    check(is(pulxarrid_run(state, memory, 4096, 0, report), report, PULXARRID_BUDGET_SPENT, 0) && report[2] == 0,
          "a run with no budget");
    check(memcmp(other, state, STATE_BYTES) == 0, "changes nothing");
    check(is(pulxarrid_run(state, memory, 4096, 4, report), report, PULXARRID_BUDGET_SPENT, 0) && report[2] == 4,
          "a run of four steps");
    check(memory[0x800] == 12 && state[PULXARRID_P] == 5, "stores the sum");
    memory[0x401] = UINT64_C(0x00000C0000050000); /* 006000 000005: J 5, at parcel 5 */
    check(is(pulxarrid_run(state, memory, 4096, PULXARRID_BUDGET_MOST, report), report, PULXARRID_BUDGET_SPENT, 0)
          && report[2] == PULXARRID_BUDGET_MOST, "a run of a million steps");
    put_sum();
    memory[0x401] = UINT64_C(0x0000000100000000);
    pulxarrid_start(state, memory, 4096, 0, 0);
    check(is(pulxarrid_run(state, memory, 4096, 100, report), report, PULXARRID_NOT_HELD, 5) && report[2] == 4,
          "a run that stops");
}

/* The first counts in A1 for ever; the second stores a number and stops. */
static void pair_run(void)
{
    static const uint8_t turns[] = {0, 1, 0, 1, 1, 0};
    uint64_t before[PULXARRID_PAIR_WORDS];

    memset(memory, 0, sizeof memory);
    put_package(memory, 1, 0x400, 0x420, 0x800, 0x900, 0, 0);
    put_package(memory, 2, 0x420, 0x440, 0x800, 0x900, 0, 0);
    memory[0x400] = UINT64_C(0x30480C0000000000); /* 030110 A1 A1+1; 006000 000000 J 0 */
    memory[0x420] = UINT64_C(0x2443904000050001); /* 022103 A1 3; 110100 000005 5,0 A1; 000001, not held */
    check(pulxarrid_start(state, memory, 4096, 1, 0) == 0, "start of the first");
    check(pulxarrid_start(other, memory, 4096, 2, 1) == 0, "start of the second");
    memcpy(before, pair, sizeof pair);
    check(is(pulxarrid_pair_run(pair, memory, 4096, turns, 0, report), report, PULXARRID_NOTHING, 0)
          && report[2] == 0, "an empty schedule");
    check(memcmp(pair, before, sizeof pair) == 0, "does nothing");
    check(is(pulxarrid_pair_run(pair, memory, 4096, turns, 4, report), report, PULXARRID_STEPPED, 0)
          && report[2] == 4, "four turns");
    check(state[PULXARRID_A + 1] == 1 && state[PULXARRID_P] == 0, "the first counted and jumped");
    check(other[PULXARRID_A + 1] == 3 && other[PULXARRID_P] == 3 && memory[0x805] == 3, "the second stored");
    check(is(pulxarrid_pair_run(pair, memory, 4096, turns + 4, 2, report), report, PULXARRID_NOT_HELD, 3)
          && report[2] == 0, "a stop ends a pair run");
    check(state[PULXARRID_A + 1] == 1, "before the next turn");
}

/* An instruction whose second parcel, if it has one, is 0; the data field, A0 to
 * A2 and VL; what a step tells of it. */
struct operand {
    uint16_t code;
    uint64_t dba, dla, a0, a1, a2, vl, outside, element;
    const char *what;
};

/* The field is words 0800 to 0BFF if not said otherwise, memory ends at 1000. A
 * limit of 1FFFF is word 3FFFE0. */
static const struct operand scalars[] = {
    {0022105, 0x40, 0x60, 0x400, 1, 0x400, 64, PULXARRID_INSIDE, 0, "no operand"},
    {0102100, 0x40, 0x60, 0, 0, 0, 64, PULXARRID_INSIDE, 0, "the first word of the field"},
    {0132100, 0x40, 0x60, 0, 0, 0x3FF, 64, PULXARRID_INSIDE, 0, "the last word of the field"},
    {0102100, 0x40, 0x60, 0, 0, 0x400, 64, PULXARRID_OVER_LIMIT, 0, "word 0C00 read, by 10h"},
    {0112100, 0x40, 0x60, 0, 0, 0x400, 64, PULXARRID_OVER_LIMIT, 0, "word 0C00 stored, by 11h"},
    {0122100, 0x40, 0x60, 0, 0, 0x400, 64, PULXARRID_OVER_LIMIT, 0, "word 0C00 read, by 12h"},
    {0132100, 0x40, 0x60, 0, 0, 0x400, 64, PULXARRID_OVER_LIMIT, 0, "word 0C00 stored, by 13h"},
    /* 3FFFFF + 0800 = 2^22 + 07FF */
    {0102100, 0x40, 0x60, 0, 0, 0x3FFFFF, 64, PULXARRID_BELOW_BASE, 0, "word 07FF"},
    {0112100, 0x40, 0x60, 0, 0, 0xFFFFFF, 64, PULXARRID_BELOW_BASE, 0, "word 07FF, by an address of 24 bits"},
    {0122100, 0x40, 0x60, 0, 0, 0x3FF800, 64, PULXARRID_BELOW_BASE, 0, "word 0"},
    {0132100, 0x40, 0x60, 0, 0, 0x3FF7FF, 64, PULXARRID_OVER_LIMIT, 0, "word 3FFFFF, which is beyond the memory too"},
    {0102100, 0x40, 0x1FFFF, 0, 0, 0x7FF, 64, PULXARRID_INSIDE, 0, "the last word of memory"},
    {0102100, 0x40, 0x1FFFF, 0, 0, 0x800, 64, PULXARRID_BEYOND_MEMORY, 0, "word 1000"},
    {0132100, 0x80, 0x1FFFF, 0, 0, 0, 64, PULXARRID_BEYOND_MEMORY, 0, "a field that begins where memory ends"},
    {0112100, 0x40, 0x80, 0, 0, 0x800, 64, PULXARRID_OVER_LIMIT, 0, "a field that ends where memory ends"},
    {0122100, 0, 0x1FFFF, 0, 0, 0x3FFFDF, 64, PULXARRID_BEYOND_MEMORY, 0, "word 3FFFDF, by base 0"},
    {0122100, 0, 0x1FFFF, 0, 0, 0x3FFFE0, 64, PULXARRID_OVER_LIMIT, 0, "word 3FFFE0, by base 0"},
    {0112100, 0x60, 0x40, 0, 0, 0, 64, PULXARRID_OVER_LIMIT, 0, "word 0C00, with limit 0800 under the base"},
    /* 3FFF00 + 0C00 = 2^22 + 0B00 */
    {0112100, 0x60, 0x40, 0, 0, 0x3FFF00, 64, PULXARRID_BELOW_BASE, 0, "word 0B00, below that base and over that limit"},
    /* 3FFFFF + 3FFFE0 = 2^22 + 3FFFDF */
    {0132100, 0x1FFFF, 0, 0, 0, 0x3FFFFF, 64, PULXARRID_BELOW_BASE, 0, "a word of which all three hold"}
};

/* A2 counts; element e is at A0 + e. */
static const struct operand blocks[] = {
    {0034200, 0x40, 0x60, 0x382, 0, 127, 64, PULXARRID_OVER_LIMIT, 126, "127 words to 0C00, by 034"},
    {0035200, 0x40, 0x60, 0x382, 0, 127, 64, PULXARRID_OVER_LIMIT, 126, "127 words to 0C00, by 035"},
    {0036200, 0x40, 0x60, 0x382, 0, 127, 64, PULXARRID_OVER_LIMIT, 126, "127 words to 0C00, by 036"},
    {0037200, 0x40, 0x60, 0x382, 0, 127, 64, PULXARRID_OVER_LIMIT, 126, "127 words to 0C00, by 037"},
    {0035200, 0x40, 0x60, 0x382, 0, 126, 64, PULXARRID_INSIDE, 0, "126 words to 0BFF"},
    {0034200, 0x40, 0x60, 0x382, 0, 255, 64, PULXARRID_OVER_LIMIT, 126, "a count of 255, which is 127"},
    {0037200, 0x40, 0x60, 0x400, 0, 128, 64, PULXARRID_INSIDE, 0, "a count of 128, which is none"},
    {0034276, 0x40, 0x60, 0x3FE, 0, 4, 64, PULXARRID_OVER_LIMIT, 2, "B76, B77, then B00 from 0C00"},
    {0037275, 0x40, 0x60, 0x3FF, 0, 4, 64, PULXARRID_OVER_LIMIT, 1, "T75, then T76 to 0C00"},
    {0036200, 0x40, 0x60, 0xFFFFFF, 0, 64, 64, PULXARRID_BELOW_BASE, 0, "07FF, then words inside"},
    {0035200, 0x40, 0x1FFFF, 0x7F0, 0, 127, 64, PULXARRID_BEYOND_MEMORY, 16, "0FF0 to past the end of memory"}
};

/* Element e is at A0 + e * A1; with k = 0, at A0 + e. */
static const struct operand vectors[] = {
    {0177021, 0x40, 0x60, 0x3F4, 1, 0, 64, PULXARRID_OVER_LIMIT, 12, "a store that passes the limit at 0BF4 + 12"},
    {0176201, 0x40, 0x60, 0x3F4, 1, 0, 13, PULXARRID_OVER_LIMIT, 12, "13 elements read from there"},
    {0177021, 0x40, 0x60, 0x3F4, 1, 0, 12, PULXARRID_INSIDE, 0, "only 12"},
    {0177020, 0x40, 0x60, 0x3C1, 9, 0, 64, PULXARRID_OVER_LIMIT, 63, "the last element, at 0BC1 + 63"},
    {0176200, 0x40, 0x60, 0x3C0, 9, 0, 64, PULXARRID_INSIDE, 0, "all 64 elements to 0BFF"},
    /* 5 - 6 = -1, which is 3FFFFF in 22 bits */
    {0177021, 0x40, 0x60, 5, 0xFFFFFF, 0, 64, PULXARRID_BELOW_BASE, 6, "a store that goes down from 0805 to 07FF"},
    {0176201, 0x40, 0x60, 0, 0x3FFFFF, 0, 2, PULXARRID_BELOW_BASE, 1, "0800, then 07FF"},
    {0176201, 0x40, 0x60, 0, 0x3FFFFF, 0, 1, PULXARRID_INSIDE, 0, "0800 alone"},
    {0177021, 0x40, 0x1FFFF, 0x7C0, 2, 0, 64, PULXARRID_BEYOND_MEMORY, 32, "a store beyond memory at 0FC0 + 2 * 32"},
    /* 2 * 200000 = 2^22 */
    {0176201, 0x40, 0x1FFFF, 0x7FF, 0x200000, 0, 3, PULXARRID_BEYOND_MEMORY, 1, "0FFF, then 200FFF, then 0FFF again"},
    /* 0400 - 0401 = -1 */
    {0177021, 0x40, 0x60, 0x400, 0xFFFBFF, 0, 64, PULXARRID_OVER_LIMIT, 0, "0C00, then 07FF"},
    /* 3FFFFF + 0401 = 2^22 + 0400 */
    {0176201, 0x40, 0x60, 0x3FFFFF, 0x401, 0, 64, PULXARRID_BELOW_BASE, 0, "07FF, then 0C00"}
};

/* One step, in each mode with IOR set and clear: it exchanges in one of the four
 * alone, and tells the same in all. */
static void operand(const struct operand *o)
{
    unsigned n;

    for (n = 0; n < 4; n++) {
        uint64_t mm = n / 2, ior = n % 2, exchanges = o->outside != PULXARRID_INSIDE && !mm && ior;
        put_sum();
        memory[0x400] = word(o->code, 0, 0, 0);
        pulxarrid_start(state, memory, 4096, 0, 0);
        state[PULXARRID_MM] = mm;
        state[PULXARRID_IOR] = ior;
        state[PULXARRID_DBA] = o->dba;
        state[PULXARRID_DLA] = o->dla;
        state[PULXARRID_A] = o->a0;
        state[PULXARRID_A + 1] = o->a1;
        state[PULXARRID_A + 2] = o->a2;
        state[PULXARRID_VL] = o->vl;
        memset(answer, 0xAA, sizeof answer);
        check(is(pulxarrid_step(state, memory, 4096, answer), answer,
                 exchanges ? PULXARRID_EXCHANGED : PULXARRID_STEPPED, exchanges ? PULXARRID_OPERAND_RANGE : 0)
              && tells(answer + 2, o->outside, o->element), o->what);
    }
}

static void operands(void)
{
    unsigned n;

    for (n = 0; n < sizeof scalars / sizeof *scalars; n++)
        operand(scalars + n);
    for (n = 0; n < sizeof blocks / sizeof *blocks; n++)
        operand(blocks + n);
    for (n = 0; n < sizeof vectors / sizeof *vectors; n++)
        operand(vectors + n);
}

/* A step at a parcel of a program whose A2 is outside, in either mode. */
static int tells_none(uint64_t p, uint64_t mm, uint64_t kind, uint64_t value)
{
    put_sum();
    memory[0x400] = word(0004000, 0000001, 0, 0); /* an exit; not held */
    memory[0x7FF] = word(0, 0, 0, 0102100);       /* A1 ?,A2: its second parcel is outside */
    pulxarrid_start(state, memory, 4096, 0, 0);
    state[PULXARRID_P] = p;
    state[PULXARRID_MM] = mm;
    state[PULXARRID_IOR] = 1;
    state[PULXARRID_A + 2] = 0x400;
    memset(answer, 0xAA, sizeof answer);
    return is(pulxarrid_step(state, memory, 4096, answer), answer, kind, value) && tells(answer + 2, PULXARRID_INSIDE, 0);
}

/* A parcel outside is no operand, nor are the words of an exchange. */
static void no_operand(void)
{
    check(tells_none(0x1000, 0, PULXARRID_EXCHANGED, PULXARRID_PROGRAM_RANGE), "program range tells no cause");
    check(tells_none(0x1000, 1, PULXARRID_MONITOR_FETCH, 0x1000), "nor a monitor fetch");
    check(tells_none(0xFFF, 0, PULXARRID_EXCHANGED, PULXARRID_PROGRAM_RANGE), "nor program range at a second parcel");
    check(tells_none(0xFFF, 1, PULXARRID_MONITOR_FETCH, 0xFFF), "nor a monitor fetch at a second parcel");
    check(tells_none(0, 0, PULXARRID_EXCHANGED, PULXARRID_NORMAL_EXIT), "nor an exit");
    check(tells_none(0, 1, PULXARRID_EXCHANGED, 0), "nor an exit in monitor mode");
    check(tells_none(1, 0, PULXARRID_NOT_HELD, 1), "nor a code that is not held");
}

/* A store over the limit at element 12, two clean steps, a read below the base,
 * a clean step; then a code that is not held. */
static void put_outside(uint64_t xa)
{
    memset(memory, 0, sizeof memory);
    put_package(memory, 0, 0x400, 0x800, 0x800, 0xC00, 0, xa);
    memory[0] |= 0x3F4;    /* A0: 0BF4 + 12 is the limit */
    memory[1] |= 1;        /* A1 */
    memory[2] |= 0x3FFFFF; /* A2: word 07FF */
    memory[0x400] = word(0177021, 0022105, 0001000, 0102300);
    memory[0x401] = word(0000000, 0001000, 0000001, 0);
    pulxarrid_start(state, memory, 4096, 0, 0);
}

/* A turn and a run tell of their last step with an operand outside: without IOR,
 * and in monitor mode with it. */
static void last_outside(void)
{
    static const struct { uint64_t budget, steps, outside, element; } runs[] = {
        {0, 0, PULXARRID_INSIDE, 0}, {1, 1, PULXARRID_OVER_LIMIT, 12}, {2, 2, PULXARRID_OVER_LIMIT, 12},
        {3, 3, PULXARRID_OVER_LIMIT, 12}, {4, 4, PULXARRID_BELOW_BASE, 0}, {5, 5, PULXARRID_BELOW_BASE, 0},
        {100, 5, PULXARRID_BELOW_BASE, 0}
    };
    unsigned n, mm;

    for (n = 0; n < 2 * (sizeof runs / sizeof *runs); n++) {
        uint64_t budget = runs[n / 2].budget, steps = runs[n / 2].steps, stops = budget > steps;
        uint64_t stepped = budget ? PULXARRID_STEPPED : PULXARRID_NOTHING;
        mm = n % 2;
        put_outside(0);
        state[PULXARRID_MM] = state[PULXARRID_IOR] = mm;
        memset(report, 0xAA, sizeof report);
        check(is(pulxarrid_run(state, memory, 4096, budget, report), report,
                 stops ? PULXARRID_NOT_HELD : PULXARRID_BUDGET_SPENT, stops ? 6 : 0)
              && report[2] == steps && tells(report + 3, runs[n / 2].outside, runs[n / 2].element), "the last of a run");
        put_outside(0);
        state[PULXARRID_MM] = state[PULXARRID_IOR] = mm;
        memset(report, 0xAA, sizeof report);
        check(is(pulxarrid_turn(state, memory, 4096, budget, report), report, stops ? PULXARRID_NOT_HELD : stepped, stops ? 6 : 0)
              && report[2] == steps && tells(report + 3, runs[n / 2].outside, runs[n / 2].element), "the last of a turn");
    }
    check(is(pulxarrid_run(state, memory, 4096, 100, report), report, PULXARRID_NOT_HELD, 6) && report[2] == 0
          && tells(report + 3, PULXARRID_INSIDE, 0), "a run tells nothing of the call before");
    check(is(pulxarrid_turn(state, memory, 4096, 100, report), report, PULXARRID_NOT_HELD, 6) && report[2] == 0
          && tells(report + 3, PULXARRID_INSIDE, 0), "nor does a turn");
}

/* What a run tells stays over exchanges, whether for operand range or not. The
 * other package has a clean step and a code that is not held. */
static void outside_and_exchanges(void)
{
    put_outside(1);
    state[PULXARRID_IOR] = 1;
    check(is(pulxarrid_turn(state, memory, 4096, 100, report), report, PULXARRID_EXCHANGED, PULXARRID_OPERAND_RANGE)
          && report[2] == 1 && tells(report + 3, PULXARRID_OVER_LIMIT, 12), "a turn that ends with operand range");
    put_outside(1);
    put_package(memory, 1, 0x440, 0x460, 0x800, 0xC00, 0, 0);
    memory[0x440] = word(0022105, 0000001, 0, 0);
    state[PULXARRID_IOR] = 1;
    check(is(pulxarrid_run(state, memory, 4096, 100, report), report, PULXARRID_NOT_HELD, 1) && report[2] == 2
          && tells(report + 3, PULXARRID_OVER_LIMIT, 12), "a run after operand range and a clean step");
    check(memory[16 + 3] >> 24 == 0x18008, "whose package has the flag"); /* XA 1, VL 64, flag 8 */
    put_outside(1);
    put_package(memory, 1, 0x440, 0x460, 0x800, 0xC00, 0, 0);
    memory[0x440] = word(0022105, 0000001, 0, 0);
    memory[0x400] = word(0177021, 0004000, 0, 0);
    check(is(pulxarrid_run(state, memory, 4096, 100, report), report, PULXARRID_NOT_HELD, 1) && report[2] == 3
          && tells(report + 3, PULXARRID_OVER_LIMIT, 12), "a run after an exit and a clean step");
}

/* The first as above. The second has a clean step, a read below the base, a clean
 * step, a store beyond memory at element 32; then a code that is not held. */
static void put_two(void)
{
    put_outside(0);
    memory[0x400] = word(0177021, 0001000, 0001000, 0001000);
    put_package(memory, 2, 0x440, 0x460, 0x800, UINT64_C(0x1FFFF) * 32, 0, 3);
    memory[32] |= 0x7C0;    /* A0: 0FC0 + 2 * 32 is the end of memory */
    memory[33] |= 2;        /* A1 */
    memory[34] |= 0x3FFFFF; /* A2: word 07FF */
    memory[0x440] = word(0022403, 0102300, 0000000, 0001000);
    memory[0x441] = word(0177021, 0000001, 0, 0);
    pulxarrid_start(other, memory, 4096, 2, 1);
}

/* A pair run tells of the last step with an operand outside for each of the two. */
static void outside_of_two(void)
{
    static const uint8_t turns[] = {0, 1, 1, 0, 1, 1, 1};
    static const uint64_t wanted[][PULXARRID_PAIR_REPORT_NUMBERS] = {
        {PULXARRID_NOTHING, 0, 0, PULXARRID_INSIDE, 0, PULXARRID_INSIDE, 0},
        {PULXARRID_STEPPED, 0, 1, PULXARRID_OVER_LIMIT, 12, PULXARRID_INSIDE, 0},
        {PULXARRID_STEPPED, 0, 2, PULXARRID_OVER_LIMIT, 12, PULXARRID_INSIDE, 0},
        {PULXARRID_STEPPED, 0, 3, PULXARRID_OVER_LIMIT, 12, PULXARRID_BELOW_BASE, 0},
        {PULXARRID_STEPPED, 0, 4, PULXARRID_OVER_LIMIT, 12, PULXARRID_BELOW_BASE, 0},
        {PULXARRID_STEPPED, 0, 5, PULXARRID_OVER_LIMIT, 12, PULXARRID_BELOW_BASE, 0},
        {PULXARRID_STEPPED, 0, 6, PULXARRID_OVER_LIMIT, 12, PULXARRID_BEYOND_MEMORY, 32},
        {PULXARRID_NOT_HELD, 5, 6, PULXARRID_OVER_LIMIT, 12, PULXARRID_BEYOND_MEMORY, 32}
    };
    static const uint64_t exchanged[PULXARRID_PAIR_REPORT_NUMBERS] = {
        PULXARRID_EXCHANGED, PULXARRID_OPERAND_RANGE, 2, PULXARRID_INSIDE, 0, PULXARRID_BELOW_BASE, 0
    };
    unsigned n;

    for (n = 0; n < sizeof wanted / sizeof *wanted; n++) {
        put_two();
        memset(report, 0xAA, sizeof report);
        check(pulxarrid_pair_run(pair, memory, 4096, turns, n, report) == 0
              && memcmp(report, wanted[n], sizeof report) == 0, "the last of each of two");
    }
    put_two();
    other[PULXARRID_IOR] = 1;
    memset(report, 0xAA, sizeof report);
    check(pulxarrid_pair_run(pair, memory, 4096, turns + 1, 6, report) == 0
          && memcmp(report, exchanged, sizeof report) == 0, "a pair run that ends with operand range of the second");
}

/* Whether a call wrote just so many numbers into room that was all AA. */
static int wrote(uint64_t number, uint64_t *room, unsigned count)
{
    unsigned n, good = number == 0;

    for (n = 0; n < PULXARRID_PAIR_REPORT_NUMBERS + 1; n++)
        good = good && (room[n] == UINT64_C(0xAAAAAAAAAAAAAAAA)) == (n >= count);
    memset(room, 0xAA, (PULXARRID_PAIR_REPORT_NUMBERS + 1) * sizeof *room);
    return (int)good;
}

static void numbers_written(void)
{
    static const uint8_t turns[] = {0, 1};
    uint64_t room[PULXARRID_PAIR_REPORT_NUMBERS + 1];

    memset(room, 0xAA, sizeof room);
    put_two();
    check(wrote(pulxarrid_step(state, memory, 4096, room), room, PULXARRID_ANSWER_NUMBERS), "the numbers of a step");
    check(wrote(pulxarrid_turn(state, memory, 4096, 1, room), room, PULXARRID_REPORT_NUMBERS), "the numbers of a turn");
    check(wrote(pulxarrid_run(state, memory, 4096, 1, room), room, PULXARRID_REPORT_NUMBERS), "the numbers of a run");
    check(wrote(pulxarrid_pair_run(pair, memory, 4096, turns, 2, room), room, PULXARRID_PAIR_REPORT_NUMBERS),
          "the numbers of a pair run");
}

/* All that a call was lent, as it was before. */
static struct {
    uint64_t pair[PULXARRID_PAIR_WORDS];
    uint64_t memory[PULXARRID_MEMORY_LEAST];
    uint64_t answer[PULXARRID_ANSWER_NUMBERS], report[PULXARRID_PAIR_REPORT_NUMBERS];
} found;

static void remember(void)
{
    memcpy(found.pair, pair, sizeof pair);
    memcpy(found.memory, memory, sizeof memory);
    memcpy(found.answer, answer, sizeof answer);
    memcpy(found.report, report, sizeof report);
}

static void refused(uint64_t number, uint64_t wanted, const char *what)
{
    check(number == wanted, what);
    check(memcmp(found.pair, pair, sizeof pair) == 0 && memcmp(found.memory, memory, sizeof memory) == 0
          && memcmp(found.answer, answer, sizeof answer) == 0 && memcmp(found.report, report, sizeof report) == 0,
          "a refused call alters nothing");
}

static void good_states(void)
{
    put_sum();
    pulxarrid_start(state, memory, 4096, 0, 0);
    pulxarrid_start(other, memory, 4096, 0, 1);
    memset(answer, 0xAA, sizeof answer);
    memset(report, 0xAA, sizeof report);
    remember();
}

/* Sets a word of the first state, and has each call refuse it; then of the
 * second, for a pair run. */
static void bad_word(unsigned place, uint64_t value, uint64_t wanted, const char *what)
{
    static const uint8_t turns[] = {0, 1};
    good_states();
    state[place] = value;
    remember();
    refused(pulxarrid_step(state, memory, 4096, answer), wanted, what);
    refused(pulxarrid_turn(state, memory, 4096, 1, report), wanted, what);
    refused(pulxarrid_turn(state, memory, 4096, 0, report), wanted, what);
    refused(pulxarrid_run(state, memory, 4096, 1, report), wanted, what);
    refused(pulxarrid_run(state, memory, 4096, 0, report), wanted, what);
    refused(pulxarrid_pair_run(pair, memory, 4096, turns, 2, report), wanted, what);
    refused(pulxarrid_pair_run(pair, memory, 4096, turns, 0, report), wanted, what);
    good_states();
    other[place] = value;
    remember();
    refused(pulxarrid_pair_run(pair, memory, 4096, turns, 2, report), wanted, what);
    refused(pulxarrid_pair_run(pair, memory, 4096, turns, 0, report), wanted, what);
}

/* The second processor first. */
static void exchange_places(void)
{
    uint64_t first[PULXARRID_STATE_WORDS];
    memcpy(first, state, sizeof first);
    memcpy(state, other, sizeof first);
    memcpy(other, first, sizeof first);
    remember();
}

static void refusals(void)
{
    static uint8_t turns[PULXARRID_SCHEDULE_MOST + 1];
    static const struct { unsigned place; uint64_t value; } wide[] = {
        {PULXARRID_P, 1 << 24}, {PULXARRID_XA, 256}, {PULXARRID_VL, 0}, {PULXARRID_VL, 65},
        {PULXARRID_IBA, 1 << 17}, {PULXARRID_ILA, 1 << 17}, {PULXARRID_DBA, 1 << 17}, {PULXARRID_DLA, 1 << 17},
        {PULXARRID_MM, 2}, {PULXARRID_IOR, 2}, {PULXARRID_IFP, 2}, {PULXARRID_FPS, 2}, {PULXARRID_BDM, 2},
        {PULXARRID_PS, 2}, {PULXARRID_CLN, 4}, {PULXARRID_A, 1 << 24}, {PULXARRID_A + 7, UINT64_MAX},
        {PULXARRID_B, 1 << 24}, {PULXARRID_B + 63, UINT64_MAX}
    };
    unsigned n;

    good_states();
    refused(pulxarrid_start(state, memory, 4095, 0, 0), PULXARRID_BAD_MEMORY, "a start in 4,095 words");
    refused(pulxarrid_step(state, memory, 4095, answer), PULXARRID_BAD_MEMORY, "a step in 4,095 words");
    refused(pulxarrid_turn(state, memory, 4095, 1, report), PULXARRID_BAD_MEMORY, "a turn in 4,095 words");
    refused(pulxarrid_run(state, memory, 4095, 1, report), PULXARRID_BAD_MEMORY, "a run in 4,095 words");
    refused(pulxarrid_pair_run(pair, memory, 4095, turns, 2, report), PULXARRID_BAD_MEMORY, "a pair run in 4,095 words");
    refused(pulxarrid_turn(state, memory, 0, 0, report), PULXARRID_BAD_MEMORY, "a turn in no words");
    refused(pulxarrid_run(state, memory, 0, 1, report), PULXARRID_BAD_MEMORY, "a run in no words");
    refused(pulxarrid_start(state, memory, 4096, 256, 0), PULXARRID_BAD_PACKAGE, "package 256");
    refused(pulxarrid_start(state, memory, 4096, UINT64_MAX, 2), PULXARRID_BAD_PACKAGE, "a bad package comes before a bad processor");
    refused(pulxarrid_turn(state, memory, 4096, 1000001, report), PULXARRID_BAD_BUDGET, "a turn with a budget of 1,000,001");
    refused(pulxarrid_run(state, memory, 4096, 1000001, report), PULXARRID_BAD_BUDGET, "a budget of 1,000,001");
    refused(pulxarrid_start(state, memory, 4096, 0, 2), PULXARRID_BAD_PROCESSOR, "a start of processor 2");
    exchange_places();
    refused(pulxarrid_pair_run(pair, memory, 4096, turns, 2, report), PULXARRID_BAD_PROCESSOR, "the two the wrong way round");
    exchange_places();
    refused(pulxarrid_pair_run(pair, memory, 4096, turns, 65537, report), PULXARRID_BAD_SCHEDULE_LENGTH, "65,537 turns");
    turns[1] = 2;
    refused(pulxarrid_pair_run(pair, memory, 4096, turns, 2, report), PULXARRID_BAD_SCHEDULE_BYTE, "a turn of 2");
    turns[1] = 0;
    bad_word(PULXARRID_PROCESSOR, 2, PULXARRID_BAD_PROCESSOR, "processor 2");
    for (n = 0; n < sizeof wide / sizeof *wide; n++)
        bad_word(wide[n].place, wide[n].value, PULXARRID_BAD_STATE, "a number too wide for its register");
    good_states();
    check(pulxarrid_pair_run(pair, memory, 4096, turns, 65536, report) == 0, "65,536 turns");
}

/* A memory of the most words is lent whole, and one word more is refused. No
 * limit reaches its last 32 words: the highest is (2^17 - 1) * 32. */
static void largest(void)
{
    size_t words = PULXARRID_MEMORY_MOST, top = words - 64;
    uint64_t *m = calloc(words + 1, sizeof *m);

    if (!m) {
        check(0, "32 MB of memory");
        return;
    }
    put_package(m, 0, top, top + 32, top, top + 32, 0, 0);
    m[top] = UINT64_C(0x24459040001F0001); /* 022105 A1 5; 110100 000037 37,0 A1; 000001, not held */
    m[words] = 0x77;
    check(pulxarrid_start(state, m, words, 0, 0) == 0, "a start in 4,194,304 words");
    check(is(pulxarrid_run(state, m, words, 10, report), report, PULXARRID_NOT_HELD, 3) && report[2] == 2,
          "a run in the last words that a field reaches");
    check(m[top + 31] == 5 && m[top + 32] == 0 && m[words] == 0x77, "stores there");
    check(tells(report + 3, PULXARRID_INSIDE, 0), "which is inside");
    check(pulxarrid_start(state, m, top + 31, 0, 0) == 0
          && is(pulxarrid_run(state, m, top + 31, 10, report), report, PULXARRID_NOT_HELD, 3)
          && tells(report + 3, PULXARRID_BEYOND_MEMORY, 0), "and beyond a memory that ends before it");
    check(pulxarrid_turn(state, m, words, 10, report) == 0, "a turn in 4,194,304 words");
    check(pulxarrid_run(state, m, words + 1, 10, report) == PULXARRID_BAD_MEMORY, "4,194,305 words are refused");
    check(pulxarrid_turn(state, m, words + 1, 10, report) == PULXARRID_BAD_MEMORY, "by a turn too");
    check(pulxarrid_start(state, m, words + 1, 0, 0) == PULXARRID_BAD_MEMORY, "by a start too");
    free(m);
}

/* Two numbers are added and the sum is stored; then a code that is not held. */
static const char sum[] = "022 A1 5\n022 A2 7\nA3 A1+A2\n0,A0 A3\ndata=000001\n";
static const uint16_t sum_parcels[] = {022105, 022207, 030312, 0110300, 0, 1};
#define SUM_PARCELS (sizeof sum_parcels / sizeof *sum_parcels)
#define SUM_BYTES (sizeof sum - 1)

/* Rooms for twice as much, and what a call reports. */
static uint16_t parcels[2 * SUM_PARCELS];
static uint8_t text[2 * SUM_BYTES];
static uint64_t told[1];

static void empty_rooms(void)
{
    memset(parcels, 0xAA, sizeof parcels);
    memset(text, 0xAA, sizeof text);
    told[0] = 0xAAAA;
}

/* Whether the rooms are as they were but for so many first bytes of each. */
static int rest_stays(size_t of_parcels, size_t of_text)
{
    const uint8_t *bytes = (const uint8_t *)parcels;
    size_t n;

    for (n = of_parcels; n < sizeof parcels; n++)
        if (bytes[n] != 0xAA)
            return 0;
    for (n = of_text; n < sizeof text; n++)
        if (text[n] != 0xAA)
            return 0;
    return 1;
}

static uint64_t assembles(const char *line, size_t room)
{
    empty_rooms();
    return pulxarrid_assemble((const uint8_t *)line, strlen(line), parcels, room, told);
}

static uint64_t lists(size_t room)
{
    empty_rooms();
    return pulxarrid_list(sum_parcels, SUM_PARCELS, text, room, told);
}

/* A program assembled, put into memory and run; the same listed. */
static void cal(void)
{
    size_t n;

    check(assembles(sum, 2 * SUM_PARCELS) == 0 && told[0] == SUM_PARCELS, "a text assembled");
    check(memcmp(parcels, sum_parcels, sizeof sum_parcels) == 0, "gives its parcels");
    check(rest_stays(sizeof sum_parcels, 0), "and leaves the others");
    put_sum();
    memset(memory + 0x400, 0, 2 * sizeof *memory);
    for (n = 0; n < told[0]; n++)
        memory[0x400 + n / 4] |= (uint64_t)parcels[n] << (48 - n % 4 * 16);
    check(pulxarrid_start(state, memory, 4096, 0, 0) == 0
          && is(pulxarrid_run(state, memory, 4096, 100, report), report, PULXARRID_NOT_HELD, 5)
          && report[2] == 4 && memory[0x800] == 12, "the program runs");
    check(lists(2 * SUM_BYTES) == 0 && told[0] == SUM_BYTES, "parcels listed");
    check(memcmp(text, sum, SUM_BYTES) == 0, "give their text");
    check(rest_stays(0, SUM_BYTES), "and leave the rest");
}

static void cal_refusals(void)
{
    static const char *const bad[] = {"A1 5\n", "PASS", "pass\n", "\n", "PASS \n", "022 A1 100\n", "data=001000\n",
                                      "data=020100\nPASS\n", "S1 RT\n"};
    unsigned n;

    for (n = 0; n < sizeof bad / sizeof *bad; n++) {
        check(assembles(bad[n], 2) == PULXARRID_BAD_LINE && told[0] == 1, bad[n]);
        check(rest_stays(0, 0), "a refused text alters no parcel");
    }
    check(assembles("PASS\nEX\nA1 5\nEX\n", 9) == PULXARRID_BAD_LINE && told[0] == 3, "the third line is bad");
    check(assembles("PASS\nEX\nA1 5\nEX\n", 1) == PULXARRID_BAD_LINE && told[0] == 3, "before there is too little room");
    check(assembles(sum, SUM_PARCELS - 1) == PULXARRID_NO_ROOM && told[0] == 0xAAAA && rest_stays(0, 0),
          "one parcel too little room");
    check(assembles(sum, 0) == PULXARRID_NO_ROOM && told[0] == 0xAAAA && rest_stays(0, 0), "no room");
    check(assembles(sum, SUM_PARCELS) == 0 && told[0] == SUM_PARCELS && rest_stays(sizeof sum_parcels, 0),
          "just the room for parcels");
    check(assembles("", 0) == 0 && told[0] == 0 && rest_stays(0, 0), "no text, no parcels");
    check(lists(SUM_BYTES - 1) == PULXARRID_NO_ROOM && told[0] == 0xAAAA && rest_stays(0, 0), "one byte too little room");
    check(lists(0) == PULXARRID_NO_ROOM && told[0] == 0xAAAA && rest_stays(0, 0), "no room for bytes");
    check(lists(SUM_BYTES) == 0 && told[0] == SUM_BYTES && rest_stays(0, SUM_BYTES), "just the room for bytes");
    empty_rooms();
    check(pulxarrid_list(sum_parcels, 0, text, 0, told) == 0 && told[0] == 0 && rest_stays(0, 0), "no parcels, no text");
}

/* Each first parcel, with a second and without one, is listed in the room that
 * the header says and comes back. */
static void every_parcel(void)
{
    uint8_t line[2 * PULXARRID_LINE_MOST];
    uint16_t one[2], back[2];
    unsigned first, count, good = 0;

    for (first = 0; first < 65536; first++)
        for (count = 1; count <= 2; count++) {
            one[0] = (uint16_t)first;
            one[1] = (uint16_t)(first * 40503u >> 8);
            good += pulxarrid_list(one, count, line, count * PULXARRID_LINE_MOST, told) == 0
                && pulxarrid_assemble(line, told[0], back, told[0] / 2 < count ? told[0] / 2 : count, told) == 0
                && told[0] == count && memcmp(one, back, count * sizeof *one) == 0;
        }
    check(good == 2 * 65536, "each parcel comes back");
}

int main(void)
{
    places();
    start();
    step();
    turn();
    any_turns();
    run();
    pair_run();
    operands();
    no_operand();
    last_outside();
    outside_and_exchanges();
    outside_of_two();
    numbers_written();
    refusals();
    largest();
    cal();
    cal_refusals();
    every_parcel();
    printf("%d passed, %d failed\n", passed, failed);
    return failed != 0;
}
