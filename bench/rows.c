#include "rows.h"

#include <stdio.h>

#include "inputs.h"

enum { RANDOM_BITS = 8 }; /* r of mode 7 */

const format formats[FORMATS] = {{"binary16", 11, 15}, {"bfloat16", 8, 127}, {"E5M2", 3, 15}};

static int is_wanted(int wanted, int index)
{
    return wanted == ALL || wanted == index;
}

int next_row(choice wanted, row *at)
{
    do {
        if (++at->kind == KINDS) {
            at->kind = 0;
            at->mode++;
        }
        if (at->mode == MODES) {
            at->mode = 0;
            at->format++;
        }
        if (at->format == FORMATS)
            return 0;
    } while (!is_wanted(wanted.format, at->format) || !is_wanted(wanted.mode, at->mode) ||
             !is_wanted(wanted.kind, at->kind));
    return 1;
}

call call_of_row(const row *at, arrays lent, size_t n)
{
    const format *f = &formats[at->format];
    call made = {f->p, f->emax, 1, (uint64_t)at->mode, RANDOM_BITS, lent.words, lent.in, lent.out, n};

    make_inputs(at->kind, f->p, f->emax, lent.in, n);
    return made;
}

void print_heads(void)
{
    printf("%-8s %4s %-9s", "format", "mode", "kind");
}

void print_row(const row *at)
{
    printf("%-8s %4d %-9s", formats[at->format].name, at->mode, kind_names[at->kind]);
}
