#include "agreement.h"

#include <inttypes.h>
#include <stdio.h>

#include "inputs.h"
#include "wharfgrain.h"

enum { EDGES = 65521 }; /* an odd number, so that no way to cut an array into chunks leaves only whole ones */

static void tell_difference(const call *c, const char *data, size_t i, const uint64_t *words, const uint64_t *bytes)
{
    fprintf(stderr, "bench: the answers differ, in p=%" PRIu64 " emax=%" PRIu64 " sub=%" PRIu64 " mode=%" PRIu64
            " r=%" PRIu64 ", %s data, element %zu: ", c->p, c->emax, c->sub, c->mode, c->r, data, i);
    fprintf(stderr, "input %016" PRIX64 ", word %016" PRIX64 "; C rounder %016" PRIX64 ", words %016" PRIX64
            ", bytes %016" PRIX64 "\n", c->in[i], c->words[i], c->out[i], words[i], bytes[i]);
}

static void answer_to(uint64_t *out, int contestant, const call *c)
{
    call own = *c;

    own.out = out;
    let(contestant, &own);
}

static int agree(const call *c, const char *data, uint64_t *const others[2])
{
    size_t i;

    let(PAPER, c);
    answer_to(others[0], WORDS, c);
    answer_to(others[1], BYTES, c);
    for (i = 0; i < c->n; i++)
        if (c->out[i] != others[0][i] || c->out[i] != others[1][i]) {
            tell_difference(c, data, i, others[0], others[1]);
            return 0;
        }
    return 1;
}

static int rows_agree(choice wanted, arrays lent, uint64_t *const others[2], size_t n, int *rows)
{
    row at = BEFORE_THE_FIRST;

    for (*rows = 0; next_row(wanted, &at); ++*rows) {
        call c = call_of_row(&at, lent, n);
        if (!agree(&c, kind_names[at.kind], others))
            return 0;
    }
    return 1;
}

/* In every mode, and in mode 7 with few random bits, with many, and with all. */
static int modes_agree(call c, uint64_t *const others[2])
{
    static const uint64_t random_bits[] = {1, 8, 30, 53};
    int k;

    for (c.mode = 0; c.mode < MODES; c.mode++)
        for (k = 0; k < (c.mode == WHARFGRAIN_STOCHASTIC ? 4 : 1); k++) {
            c.r = random_bits[k];
            if (!agree(&c, "edge", others))
                return 0;
        }
    return 1;
}

/* Formats of all sizes: the timed ones, and those that reach binary64's subnormal numbers, or all its bits. */
static int edges_agree(arrays lent, uint64_t *const others[2], size_t n)
{
    static const uint64_t shapes[][2] = {{11, 15},   {8, 127},   {3, 15},    {24, 127},  {2, 1},   {53, 1},
                                         {53, 1000}, {40, 1000}, {53, 1023}, {11, 1023}, {2, 1023}};
    size_t k;

    for (k = 0; k < sizeof shapes / sizeof *shapes; k++) {
        call c = {shapes[k][0], shapes[k][1], 0, 0, 0, lent.words, lent.in, lent.out, n};
        make_edges(c.p, c.emax, lent.in, n);
        for (c.sub = 0; c.sub < 2; c.sub++)
            if (!modes_agree(c, others))
                return 0;
    }
    return 1;
}

int all_agree(choice wanted, arrays lent, uint64_t *const others[2], size_t n)
{
    int rows;

    if (!rows_agree(wanted, lent, others, n, &rows) || !edges_agree(lent, others, n < EDGES ? n : EDGES))
        return 0;
    printf("All answers agree: on %zu elements in each row, %d in all, and on the edges of many formats.\n", n, rows);
    return 1;
}
