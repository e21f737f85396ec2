/*
 * The paper's algorithms, on the bits of a binary64 number. What depends on the format alone is worked out before
 * the loop, and each mode has a loop of its own.
 *
 * Algorithm 5.1 finds out how many bits are kept, and 5.2 to 5.5 tell underflow, overflow and what is in range
 * apart, in this order. In range, section 6 adds a number below the last kept place and clears what is below it. Of
 * the ways to write that down this one is the fastest over all modes and kinds of data, with each of three compilers:
 *   - Whether a number is subnormal chooses between two values. As a branch it saves up to a third of the time on
 *     normal data, and costs some three quarters more on mixed data.
 *   - Underflow and overflow are branches. As choices between values they cost more on every kind of data.
 */
#include "paper.h"

#define SIGN ((uint64_t)1 << 63)
#define INFINITE ((uint64_t)0x7FF << 52)
#define LEADING ((uint64_t)1 << 52) /* the leading one of a binary64 number, which its pattern leaves out */

enum {
    NEAREST_EVEN,
    NEAREST_ZERO,
    NEAREST_AWAY,
    TOWARD_ZERO,
    TOWARD_PLUS,
    TOWARD_MINUS,
    TO_ODD,
    STOCHASTIC,
    EVEN_CHANCE
};

/* What is worked out before the loop. Numbers are patterns, and exponents are as in the exponent field. */
typedef struct {
    uint64_t cut;       /* how many bits of a normal number are cut: 53 - p */
    uint64_t emin;      /* the exponent of the smallest normal number */
    uint64_t zeta;      /* the smallest positive number */
    uint64_t zeta_from; /* from here on a nearest mode rounds to zeta, and below to zero */
    uint64_t zeta_ends; /* in units of the last place of a number of exponent e, zeta is 2^(zeta_ends - e) */
    uint64_t too_large; /* the first magnitude that overflows, in modes 0 to 6 */
    uint64_t xmax;      /* the largest number */
    uint64_t top;       /* 2^(emax+1), a step above it */
    uint64_t r;         /* how many random bits there are in mode 7 */
    uint64_t low;       /* the low r bits */
} format;

/* The pattern of 2^e, or 0 below binary64's smallest number. */
static uint64_t power(int e)
{
    if (e >= -1022)
        return (uint64_t)(e + 1023) << 52;
    return e >= -1074 ? (uint64_t)1 << (e + 1074) : 0;
}

/* The first magnitude that overflows. In nearest modes that is half a step above xmax. */
static uint64_t first_too_large(const format *f, uint64_t mode)
{
    if (mode > NEAREST_AWAY || f->cut == 0)
        return f->xmax + 1;
    return f->xmax + ((uint64_t)1 << (f->cut - 1)) + (mode == NEAREST_ZERO);
}

/* The first magnitude that a nearest mode rounds to zeta: half of it, or the next above. */
static uint64_t first_not_zero(uint64_t half, uint64_t mode)
{
    return mode == NEAREST_AWAY && half != 0 ? half : half + 1;
}

static format worked_out(uint64_t p, uint64_t emax, uint64_t sub, uint64_t mode, uint64_t r)
{
    int emin = 1 - (int)emax;
    int least = sub ? emin - (int)p + 1 : emin;
    format f;

    f.cut = 53 - p;
    f.emin = 1024 - emax;
    f.zeta = power(least);
    f.zeta_from = first_not_zero(power(least - 1), mode);
    f.zeta_ends = (uint64_t)(least + 1075);
    f.top = (emax + 1024) << 52;
    f.xmax = f.top - ((uint64_t)1 << f.cut);
    f.too_large = first_too_large(&f, mode);
    f.r = r;
    f.low = ((uint64_t)1 << r) - 1;
    return f;
}

/* ---- below zeta */

/* Algorithm 5.5, lines 3 to 10: K is the magnitude in units of zeta / 2^r. */
static inline uint64_t stochastic_underflow(const format *f, uint64_t a, uint64_t word)
{
    uint64_t e = a < LEADING ? 1 : a >> 52;
    uint64_t m = a < LEADING ? a : (a & (LEADING - 1)) | LEADING;
    uint64_t places = f->zeta_ends - e, k;

    if (places < f->r)
        k = m << (f->r - places);
    else
        k = places - f->r < 64 ? m >> (places - f->r) : 0;
    return (k + (word & f->low)) >> f->r ? f->zeta : 0;
}

/* What becomes of x, whose magnitude is a; without its sign. */
static inline uint64_t underflow(const format *f, int mode, uint64_t x, uint64_t a, uint64_t word)
{
    int up;

    switch (mode) {
    case TOWARD_ZERO: return 0;
    case TOWARD_PLUS: up = a != 0 && x < SIGN; break;
    case TOWARD_MINUS: up = a != 0 && x >= SIGN; break;
    case TO_ODD: up = a != 0; break;
    case STOCHASTIC: return stochastic_underflow(f, a, word);
    case EVEN_CHANCE: up = a != 0 && (word & 1) != 0; break;
    default: up = a >= f->zeta_from;
    }
    return up ? f->zeta : 0;
}

/* ---- above xmax */

/* What becomes of x, whose magnitude is a; without its sign. Infinities and NaNs stay. */
static inline uint64_t overflow(const format *f, int mode, uint64_t x, uint64_t a)
{
    if (a >= INFINITE)
        return a;
    switch (mode) {
    case TOWARD_ZERO:
    case TO_ODD: return f->xmax;
    case TOWARD_PLUS: return x < SIGN ? INFINITE : f->xmax;
    case TOWARD_MINUS: return x < SIGN ? f->xmax : INFINITE;
    default: return INFINITE;
    }
}

/* ---- in range */

/*
 * Algorithm 5.1, lines 6 to 9: how many bits are cut from a number of magnitude a. `deep` says that the format has
 * numbers that are subnormal in binary64. Those have exponent field 0, and the last place of exponent field 1.
 */
static inline uint64_t bits_cut(const format *f, int deep, uint64_t a)
{
    uint64_t e = a >> 52;

    if (deep && e == 0)
        e = 1;
    return e < f->emin ? f->cut + f->emin - e : f->cut;
}

/* Whether the last kept digit is 1. Where all but the leading one are cut, it is that. */
static inline int odd(uint64_t x, uint64_t step)
{
    return ((x | LEADING) & step) != 0;
}

/* The low r bits of the word, moved to the top of the bits that are cut. Mostly there are fewer of them. */
static inline uint64_t random_bits(const format *f, uint64_t word, uint64_t cut)
{
    if (f->r <= f->cut)
        return (word & f->low) << (cut - f->r);
    return word << (64 - f->r) >> (63 - cut) >> 1;
}

/* What is added to x before the bits below `step`, which is 2^cut, are cleared. */
static inline uint64_t increment(const format *f, int mode, uint64_t x, uint64_t word, uint64_t cut, uint64_t step)
{
    uint64_t tail = step - 1;

    switch (mode) {
    case NEAREST_EVEN: return (tail >> 1) + (uint64_t)odd(x, step & ~(uint64_t)1); /* where nothing is cut, 0 */
    case NEAREST_ZERO: return tail >> 1;
    case NEAREST_AWAY: return step >> 1;
    case TOWARD_PLUS: return x < SIGN ? tail : 0;
    case TOWARD_MINUS: return x < SIGN ? 0 : tail;
    case TO_ODD: return odd(x, step) ? 0 : tail;
    case STOCHASTIC: return random_bits(f, word, cut);
    case EVEN_CHANCE: return word & 1 ? tail : 0;
    default: return 0;
    }
}

/* ---- one number */

/* Algorithms 5.2 to 5.4: underflow, overflow, in range. */
static inline uint64_t determined(const format *f, int mode, int deep, uint64_t x)
{
    uint64_t a = x & ~SIGN, cut, step;

    if (a < f->zeta)
        return (x & SIGN) | underflow(f, mode, x, a, 0);
    if (a >= f->too_large)
        return (x & SIGN) | overflow(f, mode, x, a);
    cut = bits_cut(f, deep, a);
    step = (uint64_t)1 << cut;
    return (x + increment(f, mode, x, 0, cut, step)) & ~(step - 1);
}

/* Algorithm 5.5: underflow, then in range or overflow, which are told apart after the rounding. */
static inline uint64_t drawn(const format *f, int mode, int deep, uint64_t x, uint64_t word)
{
    uint64_t a = x & ~SIGN, cut, step, y;

    if (a < f->zeta)
        return (x & SIGN) | underflow(f, mode, x, a, word);
    cut = bits_cut(f, deep, a);
    step = (uint64_t)1 << cut;
    y = (a + increment(f, mode, x, word, cut, step)) & ~(step - 1);
    return (x & SIGN) | (y < f->top ? y : overflow(f, mode, x, a));
}

static inline uint64_t rounded(const format *f, int mode, int deep, uint64_t x, uint64_t word)
{
    return mode < STOCHASTIC ? determined(f, mode, deep, x) : drawn(f, mode, deep, x, word);
}

/* ---- arrays */

typedef void loop(format f, const uint64_t *restrict words, const uint64_t *restrict in,
                  uint64_t *restrict out, size_t n);

/* The loop of a mode: one for deep formats, and one for the others. */
#define LOOP(NAME, MODE, WORD)                                                                             \
    static void NAME(format f, const uint64_t *restrict words, const uint64_t *restrict in,                \
                     uint64_t *restrict out, size_t n)                                                     \
    {                                                                                                      \
        size_t i;                                                                                          \
        (void)words;                                                                                       \
        if (f.zeta < LEADING)                                                                              \
            for (i = 0; i < n; i++)                                                                        \
                out[i] = rounded(&f, MODE, 1, in[i], WORD);                                                \
        else                                                                                               \
            for (i = 0; i < n; i++)                                                                        \
                out[i] = rounded(&f, MODE, 0, in[i], WORD);                                                \
    }

LOOP(nearest_even, NEAREST_EVEN, 0)
LOOP(nearest_zero, NEAREST_ZERO, 0)
LOOP(nearest_away, NEAREST_AWAY, 0)
LOOP(toward_zero, TOWARD_ZERO, 0)
LOOP(toward_plus, TOWARD_PLUS, 0)
LOOP(toward_minus, TOWARD_MINUS, 0)
LOOP(to_odd, TO_ODD, 0)
LOOP(stochastic, STOCHASTIC, words[i])
LOOP(even_chance, EVEN_CHANCE, words[i])

void paper_round(uint64_t p, uint64_t emax, uint64_t sub, uint64_t mode, uint64_t r,
                 const uint64_t *words, const uint64_t *in, uint64_t *out, size_t n)
{
    static loop *const loops[] = {nearest_even, nearest_zero, nearest_away, toward_zero, toward_plus,
                                  toward_minus, to_odd, stochastic, even_chance};

    loops[mode](worked_out(p, emax, sub, mode, r), words, in, out, n);
}
