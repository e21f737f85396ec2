#define _POSIX_C_SOURCE 200809L

#include "instructions.h"

#include <stdio.h>

#ifdef __x86_64__

#include <signal.h>
#include <string.h>
#include <x86intrin.h>

#include "inputs.h"

/* While this flag is set the processor traps behind each instruction, which comes here as a signal. */
#define TRAP 0x100

static volatile sig_atomic_t steps;

static void count_step(int signal_number)
{
    (void)signal_number;
    steps++;
}

static void expect_traps(void)
{
    struct sigaction counting;

    memset(&counting, 0, sizeof counting);
    counting.sa_handler = count_step;
    sigaction(SIGTRAP, &counting, NULL);
}

/* The instructions of a call, and some that are always the same. */
static int steps_of(int contestant, const call *c)
{
    steps = 0;
    __writeeflags(__readeflags() | TRAP);
    let(contestant, c);
    __writeeflags(__readeflags() & ~TRAP);
    return steps;
}

static double steps_per_element(int contestant, const call *c)
{
    call empty = *c;

    empty.n = 0;
    return (double)(steps_of(contestant, c) - steps_of(contestant, &empty)) / (double)c->n;
}

void count_instructions(choice wanted, arrays lent, size_t n)
{
    row at = BEFORE_THE_FIRST;
    int who;

    expect_traps();
    printf("\nx86-64 instructions per element: calls of %zu elements\n", n);
    print_heads();
    printf("%8s%8s%8s\n", "C", "words", "bytes");
    while (next_row(wanted, &at)) {
        call c;

        if (wanted.kind == ALL && at.kind != NORMAL && at.kind != SUBNORMAL)
            continue;
        c = call_of_row(&at, lent, n);
        print_row(&at);
        for (who = PAPER; who < CONTESTANTS; who++)
            printf("%8.1f", steps_per_element(who, &c));
        printf("\n");
        fflush(stdout);
    }
}

#else

void count_instructions(choice wanted, arrays lent, size_t n)
{
    (void)wanted;
    (void)lent;
    (void)n;
    printf("\nx86-64 instructions cannot be counted here, since the library is compiled for another machine.\n");
}

#endif
