/* Calls the library as a program in C does, on the memory of a case sheet from standard input.

     library run WORDS STEPS     one run of STEPS steps on a memory of WORDS words
     library starts WORDS CALLS  so often a start and one step
     library steps WORDS CALLS   a start, and so often one step
     library pair TURN STEPS     a pair run, its schedule changing processor after TURN steps

   It prints how many steps were taken. Or on a text of CAL from standard input:

     library assemble COPIES CALLS   so often the text assembled, COPIES of it in a row
     library list COPIES CALLS       so often its parcels listed, in 16 bytes of room for each
     library fill COPIES CALLS       so often its parcels listed, in just the room that they need

   It prints how many parcels or bytes the calls wrote. The status is 1 if a call is refused. */
#include <stdint.h>
#include <stdio.h>
#include <stdlib.h>
#include <string.h>

#include "pulxarrid.h"

/* The most steps of one call of a pair run. */
#define PART 50000

typedef uint64_t State[PULXARRID_STATE_WORDS];
typedef uint64_t Pair[PULXARRID_PAIR_WORDS];

/* The calls of the library. A step or a run gives the steps that it took, assembling or listing what it wrote. */

static void taken(uint64_t refused)
{
    if (refused) {
        fprintf(stderr, "refused=%llu\n", (unsigned long long)refused);
        exit(1);
    }
}

static void start(State state, const uint64_t *memory, size_t words, uint64_t package, uint64_t processor)
{
    taken(pulxarrid_start(state, memory, words, package, processor));
}

static uint64_t step(State state, uint64_t *memory, size_t words)
{
    uint64_t answer[PULXARRID_ANSWER_NUMBERS];
    taken(pulxarrid_step(state, memory, words, answer));
    return answer[0] < 2;
}

static uint64_t run(State state, uint64_t *memory, size_t words, uint64_t budget)
{
    uint64_t answer[PULXARRID_REPORT_NUMBERS];
    taken(pulxarrid_run(state, memory, words, budget, answer));
    return answer[2];
}

static uint64_t pair_run(Pair pair, uint64_t *memory, size_t words, const uint8_t *schedule, size_t length)
{
    uint64_t answer[PULXARRID_PAIR_REPORT_NUMBERS];
    taken(pulxarrid_pair_run(pair, memory, words, schedule, length, answer));
    return answer[2];
}

static uint64_t assemble(const uint8_t *text, size_t bytes, uint16_t *parcels, size_t room)
{
    uint64_t answer[1];
    taken(pulxarrid_assemble(text, bytes, parcels, room, answer));
    return answer[0];
}

static uint64_t list(const uint16_t *parcels, size_t count, uint8_t *text, size_t room)
{
    uint64_t answer[1];
    taken(pulxarrid_list(parcels, count, text, room, answer));
    return answer[0];
}

static void *allocated(size_t count, size_t size)
{
    void *room = calloc(count ? count : 1, size);
    if (!room)
        exit(1);
    return room;
}

/* A memory that holds the words of the sheet on standard input. */
static uint64_t *memory_of_sheet(size_t words)
{
    uint64_t *memory = allocated(words, sizeof *memory);
    char line[64];
    while (fgets(line, sizeof line, stdin)) {
        unsigned long long at, word;
        if (sscanf(line, "%4llx=%16llx", &at, &word) == 2 && at < words)
            memory[at] = word;
    }
    return memory;
}

/* One step a call; before each, or before the first alone, a start. */
static uint64_t calls(uint64_t *memory, size_t words, uint64_t count, int anew)
{
    static State state;
    uint64_t steps = 0;
    for (uint64_t n = 0; n < count; n++) {
        if (anew || !n)
            start(state, memory, words, 0, 0);
        steps += step(state, memory, words);
    }
    return steps;
}

static uint64_t pairs(uint64_t *memory, size_t words, uint64_t turn, uint64_t count)
{
    static Pair pair;
    static uint8_t schedule[PART];
    uint64_t steps = 0;
    for (uint64_t n = 0; n < PART; n++)
        schedule[n] = n / turn % 2;
    start(pair, memory, words, 0, 0);
    start(pair + PULXARRID_STATE_WORDS, memory, words, 1, 1);
    while (steps < count) {
        size_t part = count - steps < PART ? count - steps : PART;
        uint64_t took = pair_run(pair, memory, words, schedule, part);
        steps += took;
        if (took < part)
            break;
    }
    return steps;
}

/* Copies of the text on standard input, assembled or listed so often: what was written. */
static uint64_t cal(const char *what, size_t copies, uint64_t count)
{
    static uint8_t once[1 << 20];
    size_t length = fread(once, 1, sizeof once, stdin), bytes = copies * length, room = bytes / 2;
    uint8_t *text = allocated(bytes, 1), *listing;
    uint16_t *parcels = allocated(room, sizeof *parcels);
    uint64_t wrote = 0, held;
    for (size_t n = 0; n < copies; n++)
        memcpy(text + n * length, once, length);
    held = assemble(text, bytes, parcels, room);
    listing = allocated(PULXARRID_LINE_MOST * held, 1);
    for (uint64_t n = 0; n < count; n++)
        if (!strcmp(what, "assemble"))
            wrote += assemble(text, bytes, parcels, room);
        else
            wrote += list(parcels, held, listing, !strcmp(what, "fill") ? bytes : PULXARRID_LINE_MOST * held);
    return wrote;
}

int main(int argc, char **argv)
{
    if (argc != 4)
        return 2;
    uint64_t number = strtoull(argv[2], 0, 10), count = strtoull(argv[3], 0, 10), steps;
    if (!strcmp(argv[1], "assemble") || !strcmp(argv[1], "list") || !strcmp(argv[1], "fill")) {
        printf("wrote=%llu\n", (unsigned long long)cal(argv[1], number, count));
        return 0;
    }
    if (!strcmp(argv[1], "pair")) {
        if (!number)
            return 2;
        steps = pairs(memory_of_sheet(4096), 4096, number, count);
    } else {
        uint64_t *memory = memory_of_sheet(number);
        int starts = !strcmp(argv[1], "starts");
        if (starts || !strcmp(argv[1], "steps")) {
            steps = calls(memory, number, count, starts);
        } else {
            static State state;
            start(state, memory, number, 0, 0);
            steps = run(state, memory, number, count);
        }
    }
    printf("steps=%llu\n", (unsigned long long)steps);
    return 0;
}
