/*
 * Times the library's array rounding beside a C rounder. bench/run builds and calls it, and its --help says what
 * it prints.
 *
 *     bench FORMAT MODE KIND ROUNDS COUNTED
 *
 * FORMAT, MODE and KIND choose rows, and may be `all`. ROUNDS is 0 for no times, and COUNTED, on how many elements
 * instructions are counted, 0 for none. The exit status is 0 where all answers agree; 1 where they do not, or the
 * memory is short; and 2 where the arguments are not as said.
 */
#define _DEFAULT_SOURCE

#include <stdio.h>
#include <stdlib.h>
#include <string.h>
#include <sys/mman.h>

#include "agreement.h"
#include "inputs.h"
#include "instructions.h"
#include "timing.h"

static const size_t row_size = (size_t)1 << 20;
static const size_t sizes[SIZES] = {(size_t)1 << 10, (size_t)1 << 16, (size_t)1 << 22};

static void fail(const char *why, int status)
{
    fprintf(stderr, "bench: %s\n", why);
    exit(status);
}

/* ---- the arguments */

static int number_up_to(int most, const char *text)
{
    char *end;
    long number = strtol(text, &end, 10);

    if (*text < '0' || *text > '9' || *end != '\0' || number > most)
        fail("a mode or a number that there is not", 2);
    return (int)number;
}

static int mode_in(const char *text)
{
    return strcmp(text, "all") == 0 ? ALL : number_up_to(MODES - 1, text);
}

static int format_in(const char *text)
{
    int k = FORMATS - 1;

    while (k >= 0 && strcmp(text, formats[k].name) != 0)
        k--;
    if (k < 0 && strcmp(text, "all") != 0)
        fail("a format that there is not", 2);
    return k < 0 ? ALL : k;
}

static int kind_in(const char *text)
{
    int k = KINDS - 1;

    while (k >= 0 && strcmp(text, kind_names[k]) != 0)
        k--;
    if (k < 0 && strcmp(text, "all") != 0)
        fail("a kind that there is not", 2);
    return k < 0 ? ALL : k;
}

/* ---- the parts */

/* In large pages where the system has them: finding an address in small ones takes time that is not rounding's. */
static uint64_t *room_for(size_t elements)
{
    static const size_t large_page = (size_t)1 << 21;
    size_t size = elements * sizeof(uint64_t);
    void *room;

    if (posix_memalign(&room, large_page, size) != 0)
        fail("there is not enough memory", 1);
#ifdef MADV_HUGEPAGE
    (void)madvise(room, size, MADV_HUGEPAGE);
#endif
    return memset(room, 0, size);
}

static void expect_agreement(choice wanted, arrays lent)
{
    uint64_t *others[2];

    others[0] = room_for(row_size);
    others[1] = room_for(row_size);
    if (!all_agree(wanted, lent, others, row_size))
        exit(1);
    free(others[0]);
    free(others[1]);
}

static void tell_times(choice wanted, arrays lent, int rounds)
{
    tally rows = time_rows(wanted, lent, row_size, rounds);
    tally grown = time_growth(wanted, lent, sizes, (rounds + 1) / 2);

    printf("\nTargets missed: words/C in %d of %d rows, bytes/words in %d of %d, growth in %d of %d.\n",
           rows.words, rows.rows, rows.bytes, rows.rows, grown.words + grown.bytes, 2 * grown.rows);
}

int main(int count, char **arguments)
{
    choice wanted;
    arrays lent;
    int rounds, counted;

    if (count != 6)
        fail("the arguments are FORMAT MODE KIND ROUNDS COUNTED", 2);
    wanted.format = format_in(arguments[1]);
    wanted.mode = mode_in(arguments[2]);
    wanted.kind = kind_in(arguments[3]);
    rounds = number_up_to(MOST_ROUNDS, arguments[4]);
    counted = number_up_to((int)row_size, arguments[5]);

    lent.words = room_for(sizes[SIZES - 1]);
    lent.in = room_for(sizes[SIZES - 1]);
    lent.out = room_for(sizes[SIZES - 1]);
    make_words(lent.words, sizes[SIZES - 1]);

    expect_agreement(wanted, lent);
    if (counted > 0)
        count_instructions(wanted, lent, (size_t)counted);
    if (rounds > 0)
        tell_times(wanted, lent, rounds);

    free(lent.words);
    free(lent.in);
    free(lent.out);
    return 0;
}
