#include "inputs.h"

#define SIGN ((uint64_t)1 << 63)
#define FRACTION (((uint64_t)1 << 52) - 1)

const char *const kind_names[KINDS] = {"normal", "mix", "subnormal", "zeros"};

/* The next number of the generator splitmix64: a counter, stirred. */
static uint64_t drawn(uint64_t *state)
{
    uint64_t z = *state += 0x9E3779B97F4A7C15;

    z = (z ^ (z >> 30)) * 0xBF58476D1CE4E5B9;
    z = (z ^ (z >> 27)) * 0x94D049BB133111EB;
    return z ^ (z >> 31);
}

static uint64_t drawn_below(uint64_t end, uint64_t *state)
{
    return drawn(state) % end;
}

/* ---- the four kinds */

/* Any sign and fraction, and an exponent field of first to last. */
static uint64_t number(uint64_t first, uint64_t last, uint64_t *state)
{
    uint64_t field = first + drawn_below(last - first + 1, state);

    return (drawn(state) & (SIGN | FRACTION)) | field << 52;
}

static uint64_t normal(uint64_t emax, uint64_t *state)
{
    return number(1024 - emax, 1023 + emax, state);
}

static uint64_t subnormal(uint64_t p, uint64_t emax, uint64_t *state)
{
    return number(1025 - emax - p, 1023 - emax, state);
}

static uint64_t zero(uint64_t *state)
{
    return drawn(state) & SIGN;
}

static uint64_t one_of_a_mix(uint64_t p, uint64_t emax, uint64_t *state)
{
    uint64_t percent = drawn_below(100, state);

    if (percent < 25)
        return subnormal(p, emax, state);
    if (percent < 30)
        return number(1024 + emax, 1034 + emax, state);
    if (percent < 32)
        return zero(state);
    if (percent < 33)
        return number(2047, 2047, state) & ~FRACTION;
    if (percent < 34)
        return number(2047, 2047, state) | 1;
    return normal(emax, state);
}

static uint64_t input(int kind, uint64_t p, uint64_t emax, uint64_t *state)
{
    switch (kind) {
    case NORMAL: return normal(emax, state);
    case MIX: return one_of_a_mix(p, emax, state);
    case SUBNORMAL: return subnormal(p, emax, state);
    default: return drawn_below(8, state) == 0 ? zero(state) : normal(emax, state);
    }
}

void make_inputs(int kind, uint64_t p, uint64_t emax, uint64_t *in, size_t n)
{
    uint64_t state = (uint64_t)kind;
    size_t i;

    for (i = 0; i < n; i++)
        in[i] = input(kind, p, emax, &state);
}

/* ---- edges */

/* An exponent field near that of zeta, of the smallest or largest normal number, of binary64's, or any. */
static uint64_t exponent_of_an_edge(uint64_t p, uint64_t emax, uint64_t *state)
{
    uint64_t near = drawn_below(5, state);

    switch (drawn_below(6, state)) {
    case 0: return emax + p < 1024 ? 1023 - emax - p + near : near;
    case 1: return 1022 - emax + near;
    case 2: return 1021 + emax + near;
    case 3: return near;
    case 4: return 2043 + near;
    default: return drawn_below(2048, state);
    }
}

/*
 * Any fraction; one cut anywhere at a tie or a unit beside it; a power of two, or one less a power of two, as the
 * largest number is, or a unit beside those; and the subnormal numbers of binary64, with any number of bits.
 */
static uint64_t edge(uint64_t p, uint64_t emax, uint64_t *state)
{
    uint64_t x = exponent_of_an_edge(p, emax, state) << 52, any = drawn(state), beside = drawn_below(3, state) - 1;
    uint64_t bit = (uint64_t)1 << drawn_below(53, state);

    switch (drawn_below(6, state)) {
    case 0: x |= any & FRACTION; break;
    case 1: x |= ((any & FRACTION & ~(2 * bit - 1)) | bit) + beside; break;
    case 2: x += beside; break;
    case 3: x += beside - bit; break;
    case 4: x = bit + beside; break;
    default: x = (any & FRACTION) / bit;
    }
    return (x & ~SIGN) | (drawn(state) & SIGN);
}

void make_edges(uint64_t p, uint64_t emax, uint64_t *in, size_t n)
{
    uint64_t state = KINDS;
    size_t i;

    for (i = 0; i < n; i++)
        in[i] = edge(p, emax, &state);
}

void make_words(uint64_t *words, size_t n)
{
    uint64_t state = KINDS + 1;
    size_t i;

    for (i = 0; i < n; i++)
        words[i] = drawn(&state);
}
