#define _POSIX_C_SOURCE 200809L

#include "timing.h"

#include <stdio.h>
#include <stdlib.h>
#include <string.h>
#include <time.h>

#include "inputs.h"
#include "wharfgrain.h"

/* ---- measuring */

enum { WARM_UP = 2, MOST_TURNS = 6 };

/* A contestant does the row's elements, in calls of this size. */
typedef struct {
    int contestant;
    size_t size;
} turn;

/* What each turn took in each round. */
typedef struct {
    int rounds;
    double times[MOST_TURNS][MOST_ROUNDS];
} record;

static double now_in_ns(void)
{
    struct timespec t;

    clock_gettime(CLOCK_MONOTONIC, &t);
    return 1e9 * (double)t.tv_sec + (double)t.tv_nsec;
}

/* What the turn takes, in ns per element. */
static double time_of(turn now, const call *all)
{
    double start = now_in_ns();
    call part = *all;

    for (part.n = now.size; part.in < all->in + all->n; part.words += part.n, part.in += part.n, part.out += part.n)
        let(now.contestant, &part);
    return (now_in_ns() - start) / (double)all->n;
}

/* All turns are taken once in each round. The first rounds warm up, and are not kept. */
static void measure(const call *all, const turn *turns, int count, int rounds, record *kept)
{
    int round, k;

    kept->rounds = rounds;
    for (round = -WARM_UP; round < rounds; round++)
        for (k = 0; k < count; k++) {
            double taken = time_of(turns[k], all);
            if (round >= 0)
                kept->times[k][round] = taken;
        }
}

static int by_size(const void *a, const void *b)
{
    double x = *(const double *)a, y = *(const double *)b;

    return (x > y) - (x < y);
}

static double median(double *values, int count)
{
    qsort(values, (size_t)count, sizeof *values, by_size);
    return values[count / 2];
}

static double median_time(const record *kept, int turn)
{
    double times[MOST_ROUNDS];

    memcpy(times, kept->times[turn], (size_t)kept->rounds * sizeof *times);
    return median(times, kept->rounds);
}

/* The median of the rounds' ratios. The turns of a round follow each other, so that it matters less where the
   machine's speed changes. */
static double median_ratio(const record *kept, int turn, int other)
{
    double ratios[MOST_ROUNDS];
    int round;

    for (round = 0; round < kept->rounds; round++)
        ratios[round] = kept->times[turn][round] / kept->times[other][round];
    return median(ratios, kept->rounds);
}

/* ---- the targets */

/* Words beside the C rounder. */
static double words_target(const row *at)
{
    if (at->kind != NORMAL)
        return 1.0;
    return at->mode < WHARFGRAIN_STOCHASTIC ? 0.5 : 0.6;
}

/* Bytes beside words, and the size that takes longest beside the one that takes shortest. */
static const double bytes_target = 1.1, growth_target = 1.25;

/* Prints the ratio, with a mark where it misses the target, and answers whether it does. */
static int print_ratio(double ratio, double target)
{
    int misses = ratio > target;

    printf("%11.2f%c", ratio, misses ? '*' : ' ');
    return misses;
}

/* ---- the tables */

static void print_times(const row *at, const record *kept, int count)
{
    int k;

    print_row(at);
    for (k = 0; k < count; k++)
        printf("%8.2f", median_time(kept, k));
}

tally time_rows(choice wanted, arrays lent, size_t n, int rounds)
{
    const turn turns[CONTESTANTS] = {{COPY, n}, {PAPER, n}, {WORDS, n}, {BYTES, n}};
    row at = BEFORE_THE_FIRST;
    tally count = {0, 0, 0};
    record kept;

    printf("\nns per element: calls of %zu elements, medians of %d rounds; * misses the target\n", n, rounds);
    print_heads();
    printf("%8s%8s%8s%8s%11s %11s %11s\n", "memcpy", "C", "words", "bytes", "words/C", "bytes/words", "bytes/C");
    while (next_row(wanted, &at)) {
        call c = call_of_row(&at, lent, n);

        measure(&c, turns, CONTESTANTS, rounds, &kept);
        print_times(&at, &kept, CONTESTANTS);
        count.rows++;
        count.words += print_ratio(median_ratio(&kept, WORDS, PAPER), words_target(&at));
        count.bytes += print_ratio(median_ratio(&kept, BYTES, WORDS), bytes_target);
        printf("%11.2f\n", median_ratio(&kept, BYTES, PAPER));
        fflush(stdout);
    }
    return count;
}

/* The longest by the shortest of the turns that begin with this one, one for each size. */
static double growth(const record *kept, int first)
{
    double least = 1, most = 1;
    int k;

    for (k = 1; k < SIZES; k++) {
        double ratio = median_ratio(kept, first + k, first);
        least = ratio < least ? ratio : least;
        most = ratio > most ? ratio : most;
    }
    return most / least;
}

tally time_growth(choice wanted, arrays lent, const size_t sizes[SIZES], int rounds)
{
    const turn turns[2 * SIZES] = {{WORDS, sizes[0]}, {WORDS, sizes[1]}, {WORDS, sizes[2]},
                                   {BYTES, sizes[0]}, {BYTES, sizes[1]}, {BYTES, sizes[2]}};
    row at = BEFORE_THE_FIRST;
    tally count = {0, 0, 0};
    record kept;

    if (wanted.format == ALL)
        wanted.format = 0;
    printf("\nns per element: calls of %zu, %zu and %zu elements, medians of %d rounds; * misses the target\n",
           sizes[0], sizes[1], sizes[2], rounds);
    print_heads();
    printf("%24s%24s%11s %11s\n", "words", "bytes", "growth", "growth");
    while (next_row(wanted, &at)) {
        call c = call_of_row(&at, lent, sizes[SIZES - 1]);

        measure(&c, turns, 2 * SIZES, rounds, &kept);
        print_times(&at, &kept, 2 * SIZES);
        count.rows++;
        count.words += print_ratio(growth(&kept, 0), growth_target);
        count.bytes += print_ratio(growth(&kept, SIZES), growth_target);
        printf("\n");
        fflush(stdout);
    }
    return count;
}
