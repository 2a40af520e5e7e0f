/* How many bytes of stack a call takes: each is made in a thread whose stack is
 * painted below the caller's frame before, and looked at after. What counts is
 * the most over many programs, for an instruction may take more than another. */
#define _POSIX_C_SOURCE 200809L
#include "pulxarrid.h"

#include <pthread.h>
#include <stdio.h>
#include <stdlib.h>
#include <string.h>

#define ROOM (256 * 1024)
#define PAINT 0x5A
/* What the caller's own frame and memset may take. It is left unpainted, and
 * counts as taken. */
#define SPARE 512
/* The limits of the header: of a call on processors, and of one on CAL. All that
 * is lent is static, so that none of it counts. */
#define MACHINE 1024
#define CAL (6 * 1024)
#define PROGRAMS 500

static uint64_t memory[4096], pair[PULXARRID_PAIR_WORDS];
static uint64_t answer[PULXARRID_ANSWER_NUMBERS], report[PULXARRID_PAIR_REPORT_NUMBERS];
static const uint8_t schedule[64] = {0, 1, 1, 0, 0, 1};
static uint16_t parcels[] = {022105, 013777, 0177777, 0147123, 0110300, 0, 020100};
static uint8_t text[sizeof parcels / sizeof *parcels * PULXARRID_LINE_MOST];
static uint64_t bytes[1], count[1];

static void start(void) { pulxarrid_start(pair, memory, 4096, 0, 0); }
static void step(void) { pulxarrid_step(pair, memory, 4096, answer); }
static void turn(void) { pulxarrid_turn(pair, memory, 4096, 1000, report); }
static void run(void) { pulxarrid_run(pair, memory, 4096, 1000, report); }
static void pair_run(void) { pulxarrid_pair_run(pair, memory, 4096, schedule, 64, report); }

static void list(void) { pulxarrid_list(parcels, sizeof parcels / sizeof *parcels, text, sizeof text, bytes); }
static void assemble(void) { pulxarrid_assemble(text, bytes[0], parcels, sizeof parcels / sizeof *parcels, count); }

static unsigned char *stack;
static void (*what)(void);
static size_t taken;

static void *measure(void *unused)
{
    volatile unsigned char here = 0;
    size_t below = (size_t)((unsigned char *)&here - stack), n = 0;

    memset(stack, PAINT, below - SPARE);
    what();
    while (n < below - SPARE && stack[n] == PAINT)
        n++;
    taken = below - n;
    return unused;
}

/* Whether a call could be measured. */
static int measured(void (*call)(void))
{
    pthread_attr_t attributes;
    pthread_t thread;
    int good;

    if (posix_memalign((void **)&stack, 4096, ROOM))
        return 0;
    what = call;
    pthread_attr_init(&attributes);
    good = !pthread_attr_setstack(&attributes, stack, ROOM)
        && !pthread_create(&thread, &attributes, measure, NULL) && !pthread_join(thread, NULL);
    free(stack);
    return good;
}

/* The first example, which ends in an exchange; after it, any words. */
static void prepare(unsigned program)
{
    uint64_t drawn = program, z; /* splitmix64 */
    unsigned n;

    memset(memory, 0, sizeof memory);
    memory[1] = UINT64_C(0x400000000);
    memory[2] = UINT64_C(0x800000000);
    memory[4] = UINT64_C(0x800000000);
    memory[5] = UINT64_C(0xC00000000);
    memory[0x400] = UINT64_C(0x2445248730CA90C0);
    for (n = 16; program && n < 4096; n++) {
        z = drawn += UINT64_C(0x9E3779B97F4A7C15);
        z = (z ^ z >> 30) * UINT64_C(0xBF58476D1CE4E5B9);
        z = (z ^ z >> 27) * UINT64_C(0x94D049BB133111EB);
        memory[n] = z ^ z >> 31;
    }
    pulxarrid_start(pair, memory, 4096, 0, 0);
    pulxarrid_start(pair + PULXARRID_STATE_WORDS, memory, 4096, 0, 1);
}

int main(void)
{
    static const struct { const char *name; void (*call)(void); size_t limit; } calls[] = {
        {"start", start, MACHINE}, {"step", step, MACHINE}, {"turn", turn, MACHINE}, {"run", run, MACHINE},
        {"pair run", pair_run, MACHINE}, {"listing", list, CAL}, {"text assembled", assemble, CAL}
    };
    unsigned n, program;
    size_t most;
    int good, passed = 0, failed = 0;

    for (n = 0; n < sizeof calls / sizeof *calls; n++) {
        good = 1;
        most = 0;
        for (program = 0; program < PROGRAMS; program++) {
            /* once before, so that the linker has looked up all names */
            prepare(program);
            calls[n].call();
            prepare(program);
            good = good && measured(calls[n].call);
            if (taken > most)
                most = taken;
        }
        if (good && most <= calls[n].limit) {
            printf("stack of a %s: %zu bytes\n", calls[n].name, most);
            passed++;
        } else {
            printf("stack of a %s: %zu bytes, too many or not measured\n", calls[n].name, most);
            failed++;
        }
    }
    printf("%d passed, %d failed\n", passed, failed);
    return failed != 0;
}
