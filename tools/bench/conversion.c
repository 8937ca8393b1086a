/* Prints how many nanoseconds of processor time an integer takes to become a number, for tools/bench/bench: of sizes below 2^42, of
 * magnitudes up to 2^53, and of larger ones. Each is the mean over 2^20 conversions of 4096 integers drawn evenly, those of the last
 * two with either sign, and the best of ten such. */
#define _POSIX_C_SOURCE 199309L
#include <inttypes.h>
#include <stdio.h>
#include <time.h>

/* conversion.ll */
void convert_all(const int64_t *integers, double *numbers, uint64_t n);

#define LIMIT (INT64_C(1) << 53)

enum { DRAWN = 4096, ROUNDS = 256, TURNS = 10 };

static double now(void)
{
    struct timespec t;

    clock_gettime(CLOCK_PROCESS_CPUTIME_ID, &t);
    return (double)t.tv_sec * 1e9 + (double)t.tv_nsec;
}

/* xorshift64* */
static uint64_t next(void)
{
    static uint64_t x = 88172645463325252u;

    x ^= x >> 12;
    x ^= x << 25;
    x ^= x >> 27;
    return x * 0x2545f4914f6cdd1du;
}

static int64_t a_size(void) { return (int64_t)(next() >> 22); }

static int64_t up_to_the_limit(void) { return (int64_t)next() % (LIMIT + 1); }

static int64_t beyond(void)
{
    int64_t x;

    do
        x = (int64_t)next();
    while (-LIMIT <= x && x <= LIMIT);
    return x;
}

static double measured(int64_t (*draw)(void))
{
    static int64_t integers[DRAWN];
    static double numbers[DRAWN];
    double best = 1e18;
    int i, turn;

    for (i = 0; i < DRAWN; i++)
        integers[i] = draw();
    for (turn = 0; turn < TURNS; turn++) {
        double from = now(), took;

        for (i = 0; i < ROUNDS; i++)
            convert_all(integers, numbers, DRAWN);
        took = (now() - from) / (ROUNDS * DRAWN);
        if (took < best)
            best = took;
    }
    for (i = 0; i < DRAWN; i++)
        if (numbers[i] != (double)integers[i])
            return -1;
    return best;
}

int main(void)
{
    double size = measured(a_size), limit = measured(up_to_the_limit), other = measured(beyond);

    printf("%.2f %.2f %.2f\n", size, limit, other);
    return size < 0 || limit < 0 || other < 0;
}
