/*
 * wharfgrain.h: whole arrays of binary64 numbers rounded to a narrower floating-point format, packed to that
 * format's own codes, and unpacked. For C99 and C++; link libwharfgrain.a. What is said here of answers and
 * refusals is proved for all inputs.
 *
 * Numbers
 *   A binary64 number is passed as its pattern: the 64 bits that IEEE 754 gives it, in a uint64_t. A double
 *   holds the same bits, and memcpy takes them out, of one number or of a whole array:
 *
 *       double x = 0.1;
 *       uint64_t pattern;
 *       memcpy(&pattern, &x, sizeof pattern);      // 0x3FB999999999999A
 *
 * Formats
 *   A format is three numbers:
 *     p      precision in bits, the leading one included: 2 to 53
 *     emax   largest exponent: 1 to 1023; the smallest exponent of a normal number is 1 - emax
 *     sub    whether the format has subnormal numbers: 0 is no, and every other number is yes
 *   It has 0 and, in both signs, the normal numbers m * 2^(e-p+1) with 2^(p-1) <= m < 2^p and 1 - emax <= e <=
 *   emax; and, with sub, the subnormal ones, 0 < m < 2^(p-1) at e = 1 - emax. The largest of them is xmax =
 *   2^emax * (2 - 2^(1-p)).
 *
 * Codes
 *   A format has codes of its own where emax + 1 is a power of two, 2^(b-1). From the top a code has a sign
 *   bit, b exponent bits, biased by emax, and p - 1 fraction bits: k = b + p bits in all. Exponents of all ones
 *   are those of infinity and, with a fraction, of NaNs, and of all zeros those of zero and of the subnormal
 *   numbers. A code is the low bits of a uint64_t, and the bits above it are 0.
 *
 * Arrays
 *   Each call comes in two forms that answer alike: on arrays of uint64_t, one for a pattern, word or code;
 *   and, its name ending in _bytes, on arrays of uint8_t, eight for one, the low byte first on every machine.
 *   - Lengths count elements, so bytes in the byte forms. Length 0 is accepted.
 *   - Places count patterns, words or codes from 0, in the byte forms too.
 *   - No pointer may be null, not even one with length 0 (as malloc(0) or an empty vector may give), nor
 *     `words` in a mode that looks at no word. Where there is nothing to point to, pass with length 0 the
 *     address of any variable of the element's type, or one of the other arrays:
 *     wharfgrain_round(p, emax, sub, 0, 0, in, 0, in, n, out, n) has no words.
 *   - `out` may not overlap `in` or `words`: nothing is rounded in place. `in` and `words` are only read, and
 *     may overlap each other.
 *   - uint64_t arrays are aligned as the compiler aligns them, also with length 0; bytes may stand anywhere.
 *   What a call does with pointers that break these rules is not defined.
 *   On x86-64 an array of doubles is such an array of bytes, and need not be copied: pass it cast to uint8_t *,
 *   with n * sizeof(double) as its length.
 *
 * Answers
 *   An accepted call reports number 0 and place 0, and has written every element of `out`. A refused call
 *   reports the number of the reason, and has written nothing: `out` keeps every byte. Where several reasons
 *   apply, the number is the first of them in the order in which the call's description lists them.
 *
 * Threads
 *   The library has no state and allocates nothing. Any number of threads may call it at once, also with the
 *   same `in` and `words`, as long as nobody writes to an array that another call is using.
 */
#ifndef WHARFGRAIN_H
#define WHARFGRAIN_H

#include <stddef.h>
#include <stdint.h>

#ifdef __cplusplus
extern "C" {
#endif

/* The known formats. All of them have subnormal numbers, and codes. */
enum {
    WHARFGRAIN_BINARY16 = 0,      /* p = 11, emax = 15,   k = 16 */
    WHARFGRAIN_BFLOAT16 = 1,      /* p = 8,  emax = 127,  k = 16 */
    WHARFGRAIN_TENSORFLOAT32 = 2, /* p = 11, emax = 127,  k = 19 */
    WHARFGRAIN_BINARY32 = 3,      /* p = 24, emax = 127,  k = 32 */
    WHARFGRAIN_BINARY64 = 4,      /* p = 53, emax = 1023, k = 64 */
    WHARFGRAIN_E5M2 = 5           /* p = 3,  emax = 15,   k = 8; by IEEE rules, so with infinities */
};

/*
 * The rounding modes. A number that the format does not have lies between two neighbours: lo, toward zero,
 * which is 0 below the smallest number, and hi, away from it. Counted in steps of hi - lo one of them is even
 * and the other odd. Above xmax the neighbour hi is 2^(emax+1), which is written as infinity; from there on
 * the last column has the answer. Every answer has the number's sign.
 */
enum {
    WHARFGRAIN_NEAREST_EVEN = 0, /* the nearer one; halfway: the even one           | infinity */
    WHARFGRAIN_NEAREST_ZERO = 1, /* the nearer one; halfway: lo                     | infinity */
    WHARFGRAIN_NEAREST_AWAY = 2, /* the nearer one; halfway: hi                     | infinity */
    WHARFGRAIN_TOWARD_ZERO = 3,  /* lo                                              | xmax */
    WHARFGRAIN_TOWARD_PLUS = 4,  /* positive: hi; negative: lo                      | infinity; -xmax */
    WHARFGRAIN_TOWARD_MINUS = 5, /* positive: lo; negative: hi                      | xmax; -infinity */
    WHARFGRAIN_TO_ODD = 6,       /* the odd one                                     | xmax */
    WHARFGRAIN_STOCHASTIC = 7,   /* with r bits of the word, see wharfgrain_round   | infinity */
    WHARFGRAIN_EVEN_CHANCE = 8   /* hi where the word is odd, else lo               | infinity */
};

/* The reasons of refusals. The place is 0, or the index that the line ends with. */
enum {
    WHARFGRAIN_ACCEPTED = 0,          /* the call was not refused */
    WHARFGRAIN_REFUSED_P = 1,         /* p is not 2 to 53 */
    WHARFGRAIN_REFUSED_EMAX = 2,      /* emax is not 1 to 1023 */
    WHARFGRAIN_REFUSED_MODE = 3,      /* the mode is above 8 */
    WHARFGRAIN_REFUSED_R = 4,         /* mode 7, and r is not 1 to 53 */
    WHARFGRAIN_REFUSED_LENGTH = 5,    /* `in` and `out` differ in length, or one is no multiple of 8 bytes */
    WHARFGRAIN_REFUSED_WORDS = 6,     /* mode 7 or 8, and there are fewer words than patterns */
    WHARFGRAIN_REFUSED_FORMAT = 7,    /* the format has no codes */
    WHARFGRAIN_REFUSED_PATTERN = 8,   /* a pattern is no NaN, and no code has its value and sign: its index */
    WHARFGRAIN_REFUSED_WIDE_CODE = 9, /* a code is 2^k or more: its index */
    WHARFGRAIN_REFUSED_CODE = 10,     /* sub is 0, and a code is that of a subnormal number: its index */
    WHARFGRAIN_REFUSED_KNOWN = 11     /* the number of a known format is above 5 */
};

/* What an array call answers. */
typedef struct {
    uint64_t number; /* 0, or the reason of the refusal */
    uint64_t place;  /* the index that the refusal names, else 0 */
} wharfgrain_report;

/* What a lookup answers: number 0 and the format; or the reason of the refusal, and zeros. */
typedef struct {
    uint64_t number;
    uint64_t p;
    uint64_t emax;
    uint64_t sub; /* 1 in every known format */
} wharfgrain_format;

/*
 * Looks up a known format.
 *   known   0 to 5
 * Refused as 11.
 */
wharfgrain_format wharfgrain_known(uint64_t known);

/*
 * Rounds every pattern of `in` to the format, into the same place of `out`.
 *   p, emax, sub   the format
 *   mode           0 to 8
 *   r              in mode 7, how many random bits there are: 1 to 53; other modes do not look at it
 *   words          in modes 7 and 8, random words, any numbers: place i uses word i, needed or not, and
 *                  further words are not looked at; other modes look at no word
 *   in             binary64 patterns, any
 *   out            the rounded numbers, as binary64 patterns; as long as `in`
 * NaNs, infinities, zeros and numbers of the format come back unaltered, in every mode. The sign is always
 * the input's, also on zero. A place of `out` depends on the same place of `in` and `words` alone.
 * Mode 7 gives hi where K + u >= 2^r, else lo: u is the word modulo 2^r and, for a number of magnitude a,
 * K = floor(2^r * (a - lo) / (hi - lo)). So K of the 2^r values of u go up.
 * Refused as 1, 2, 3, 4, 5, 6, in this order.
 */
wharfgrain_report wharfgrain_round(uint64_t p, uint64_t emax, uint64_t sub, uint64_t mode, uint64_t r,
                                   const uint64_t *words, size_t words_len,
                                   const uint64_t *in, size_t in_len,
                                   uint64_t *out, size_t out_len);

/*
 * Packs every pattern of `in` to its code in the format, into the same place of `out`.
 *   p, emax, sub   the format
 *   in             binary64 patterns, as wharfgrain_round gives them for this format
 *   out            the codes; as long as `in`
 * A NaN's code has its sign, the top fraction bit set and the other fraction bits clear.
 * Refused as 1, 2, 7, 5, 8, in this order; 8 with the lowest such index.
 */
wharfgrain_report wharfgrain_pack(uint64_t p, uint64_t emax, uint64_t sub,
                                  const uint64_t *in, size_t in_len,
                                  uint64_t *out, size_t out_len);

/*
 * Unpacks every code of `in` to its binary64 pattern, into the same place of `out`.
 *   p, emax, sub   the format
 *   in             codes of the format, below 2^k
 *   out            the patterns; as long as `in`
 * A NaN's pattern is 0x7FF8000000000000 with its sign. NaNs aside, what unpacks packs to the same code, and
 * what packs unpacks to the same pattern.
 * Refused as 1, 2, 7, 5, 9 or 10, in this order; 9 or 10 with the lowest index that has either, and there 9
 * before 10.
 */
wharfgrain_report wharfgrain_unpack(uint64_t p, uint64_t emax, uint64_t sub,
                                    const uint64_t *in, size_t in_len,
                                    uint64_t *out, size_t out_len);

/*
 * The same on bytes, with lengths in bytes; refused for the same reasons in the same order. An `in` or `out`
 * whose length is no multiple of 8 is refused as 5, also where both are equally long. Of `words` only whole
 * words count: one to seven bytes behind the last are not looked at.
 */
wharfgrain_report wharfgrain_round_bytes(uint64_t p, uint64_t emax, uint64_t sub, uint64_t mode, uint64_t r,
                                         const uint8_t *words, size_t words_len,
                                         const uint8_t *in, size_t in_len,
                                         uint8_t *out, size_t out_len);

wharfgrain_report wharfgrain_pack_bytes(uint64_t p, uint64_t emax, uint64_t sub,
                                        const uint8_t *in, size_t in_len,
                                        uint8_t *out, size_t out_len);

wharfgrain_report wharfgrain_unpack_bytes(uint64_t p, uint64_t emax, uint64_t sub,
                                          const uint8_t *in, size_t in_len,
                                          uint8_t *out, size_t out_len);

#ifdef __cplusplus
}
#endif

#endif
