/* Runs one image and prints how long that took, for tools/bench/bench. All times are this process's processor time, user and system.
 *
 *     host run IMAGE [BUDGET]    instructions, nanoseconds of the run, returned values (kind:word ..): none where the budget is used
 *     host slices IMAGE BUDGET   nanoseconds of a `dm_run` on that budget: the mean until 2,000,000 instructions are done, or the end
 *     host call IMAGE            nanoseconds of a `dm_run` on no budget, and of one on a budget of 1 (the image loops for ever)
 *     host read IMAGE            nanoseconds of reading and of checking the image */
#define _POSIX_C_SOURCE 199309L
#include <inttypes.h>
#include <stdio.h>
#include <stdlib.h>
#include <string.h>
#include <time.h>

#include "deletion_machine.h"

static uint8_t image[DM_IMAGE];
static dm_storage storage;
static dm_state state;
static uint32_t answer[DM_ANSWER];

static uint64_t now(void)
{
    struct timespec t;

    clock_gettime(CLOCK_PROCESS_CPUTIME_ID, &t);
    return (uint64_t)t.tv_sec * 1000000000u + (uint64_t)t.tv_nsec;
}

/* one `dm_run`, which takes no budget above 32 bits; how many instructions it carried out */
static uint64_t run_on(uint64_t budget)
{
    dm_run(DM_STORAGE(&storage), DM_STATE(&state), budget < UINT32_MAX ? (uint32_t)budget : UINT32_MAX, answer, DM_ANSWER);
    return answer[1];
}

/* the exit code of a run: a budget that is used is as good an end as the image's own */
static int ended(void) { return answer[0] == DM_DONE || answer[0] == DM_BUDGET ? 0 : 1; }

static int run(uint64_t budget)
{
    uint64_t count = 0, from = now(), took;
    uint32_t i;

    do
        count += run_on(budget - count);
    while (answer[0] == DM_BUDGET && count < budget);
    took = now() - from;
    printf("%" PRIu64 " %" PRIu64, count, took);
    dm_returned(DM_STORAGE(&storage), DM_STATE(&state), answer, DM_ANSWER);
    for (i = 0; i < answer[5]; i++)
        printf(" %d:%" PRIu64, state.kinds[answer[4] + i], state.words[answer[4] + i]);
    puts("");
    return ended();
}

static int slices(uint64_t budget)
{
    uint64_t count = 0, runs = 0, from = now();

    do {
        count += run_on(budget);
        runs++;
    } while (answer[0] == DM_BUDGET && count < 2000000);
    printf("%.1f\n", (double)(now() - from) / (double)runs);
    return ended();
}

/* the mean of so many calls, and the best of ten such */
static uint64_t best_of(int calls, void (*call)(void))
{
    uint64_t best = UINT64_MAX;
    int i, turn;

    for (turn = 0; turn < 10; turn++) {
        uint64_t from = now(), took;
        for (i = 0; i < calls; i++)
            call();
        took = (now() - from) / (uint64_t)calls;
        if (took < best)
            best = took;
    }
    return best;
}

static size_t length;

static void no_budget(void) { run_on(0); }
static void one_instruction(void) { run_on(1); }
static void read_image(void) { dm_read(image, length, DM_STORAGE(&storage), answer, DM_ANSWER); }
static void check_image(void) { dm_check(DM_STORAGE(&storage), answer, DM_ANSWER); }

int main(int argc, char **argv)
{
    static const uint8_t no_kinds[1] = {0};
    static const uint64_t no_words[1] = {0};
    uint64_t budget = argc == 4 ? strtoull(argv[3], NULL, 10) : UINT64_MAX;
    FILE *f;

    if (argc < 3 || argc > 4 || budget == 0 || (f = fopen(argv[2], "rb")) == NULL) {
        fprintf(stderr, "usage: host run|slices|call|read IMAGE [BUDGET]\n");
        return 2;
    }
    length = fread(image, 1, sizeof image, f);
    fclose(f);
    read_image();
    if (answer[0] != DM_DONE)
        return 1;
    if (strcmp(argv[1], "read") == 0) {
        printf("%" PRIu64 " %" PRIu64 "\n", best_of(20, read_image), best_of(20, check_image));
        return 0;
    }
    if (dm_start(DM_STORAGE(&storage), DM_STATE(&state), no_kinds, 0, no_words, 0, answer, DM_ANSWER) != DM_DONE)
        return 1;
    if (strcmp(argv[1], "call") == 0) {
        /* so many that asking for the processor time, half a microsecond, does not count beside 30 nanoseconds */
        printf("%" PRIu64 " %" PRIu64 "\n", best_of(2000, no_budget), best_of(2000, one_instruction));
        return 0;
    }
    return strcmp(argv[1], "slices") == 0 ? slices(budget) : run(budget);
}
