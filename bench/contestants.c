#include "contestants.h"

#include <inttypes.h>
#include <stdio.h>
#include <stdlib.h>
#include <string.h>

#include "paper.h"
#include "wharfgrain.h"

static void expect_accepted(wharfgrain_report report)
{
    if (report.number == WHARFGRAIN_ACCEPTED)
        return;
    fprintf(stderr, "bench: the library refuses a call as %" PRIu64 "\n", report.number);
    exit(1);
}

/* The machine keeps the low byte of a word first, as the library's bytes are, so that both share their arrays. */
void let(int contestant, const call *c)
{
    size_t size = c->n * sizeof *c->in;

    switch (contestant) {
    case COPY: memcpy(c->out, c->in, size); break;
    case PAPER: paper_round(c->p, c->emax, c->sub, c->mode, c->r, c->words, c->in, c->out, c->n); break;
    case WORDS:
        expect_accepted(wharfgrain_round(c->p, c->emax, c->sub, c->mode, c->r, c->words, c->n,
                                         c->in, c->n, c->out, c->n));
        break;
    default:
        expect_accepted(wharfgrain_round_bytes(c->p, c->emax, c->sub, c->mode, c->r,
                                               (const uint8_t *)c->words, size,
                                               (const uint8_t *)c->in, size, (uint8_t *)c->out, size));
    }
}
