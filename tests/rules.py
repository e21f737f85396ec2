"""The rules of document 01 in whole numbers: what a pattern is worth, how it is rounded, packed and unpacked, and
what is refused. Magnitudes are counted in units of 2^-1074, in which every finite binary64 and every target number
is whole. It shares nothing with the proved code.
"""


def power(e):
    """2^e, in units; no rule needs one below the unit."""
    return 1 << (e + 1074)


# Infinity's pattern, and 2^1024, which stands for what is infinite: it is above every number, and read as a number
# infinity's pattern gives it. Magnitude patterns above are NaNs, and QUIET is what a code's NaN is unpacked to.
INFINITY = 2047 << 52
INFINITE = power(1024)
QUIET = INFINITY + 2**51


def exponent(a):
    """The e with 2^e <= a < 2^(e+1), for a magnitude that is not zero."""
    return a.bit_length() - 1075


def value(magnitude):
    """The number that a magnitude pattern stands for, by IEEE 754's two fields."""
    field, fraction = magnitude >> 52, magnitude & (2**52 - 1)
    return fraction if field == 0 else (2**52 + fraction) << (field - 1)


def pattern(number):
    """The magnitude pattern of a number that binary64 holds, or of what is infinite."""
    field = max(number.bit_length() - 52, 0)
    magnitude = number if field == 0 else (field << 52) + (number >> (field - 1)) - 2**52
    assert value(magnitude) == number <= INFINITE
    return magnitude


def neighbours(a, p, emax, sub):
    """lo, hi and lo's m, for a magnitude below T."""
    emin = 1 - emax
    if sub or a >= power(emin):
        step = power(max(exponent(a), emin) - p + 1)
    else:
        step = power(emin)
    m = a // step
    return m * step, (m + 1) * step, m


def K(lo, hi, a, r):
    """Of mode 7: how many 2^r-th parts of the gap a lies above lo, the rest cut off."""
    return 2**r * (a - lo) // (hi - lo)


def takes_hi(mode, negative, lo, hi, m, a, r, word):
    nearer = 2 * a - lo - hi
    if mode == 0:
        return nearer > 0 or (nearer == 0 and m % 2 == 1)
    if mode == 1:
        return nearer > 0
    if mode == 2:
        return nearer >= 0
    if mode == 7:
        return K(lo, hi, a, r) + word % 2**r >= 2**r
    return {3: False, 4: not negative, 5: negative, 6: m % 2 == 0, 8: word % 2 == 1}[mode]


def rounded(p, emax, sub, mode, r, word, x):
    sign, magnitude = x & 2**63, x & (2**63 - 1)
    if magnitude == 0 or magnitude >= INFINITY:
        return x
    negative, a, top = sign != 0, value(magnitude), power(emax + 1)
    if a >= top:
        xmax = top - power(emax - p + 1)
        finite = mode in (3, 6) or (mode == 4 and negative) or (mode == 5 and not negative)
        return sign | pattern(xmax if finite else INFINITE)
    lo, hi, m = neighbours(a, p, emax, sub)
    answer = lo if a == lo or not takes_hi(mode, negative, lo, hi, m, a, r, word) else hi
    return sign | pattern(INFINITE if answer >= top else answer)


def refusal(p, emax, mode, r):
    if not 2 <= p <= 53:
        return 1
    if not 1 <= emax <= 1023:
        return 2
    if mode > 8:
        return 3
    return 4 if mode == 7 and not 1 <= r <= 53 else 0


def width(p, emax):
    """k = be + p, where emax + 1 = 2^(be-1); None for a format without codes."""
    return p + (emax + 1).bit_length() if (emax + 1) & emax == 0 else None


def code_refusal(p, emax):
    number = refusal(p, emax, 0, 0)
    return 7 if number == 0 and width(p, emax) is None else number


def number_of(p, emax, code):
    """What a code without a sign stands for, by IEEE 754's fields E and T; None for a NaN."""
    field, trailing = divmod(code, 2 ** (p - 1))
    if field == 2 * emax + 1:
        return None if trailing else INFINITE
    e = max(field, 1) - emax
    return (power(e) if field else 0) + trailing * power(e - p + 1)


def unpacked(p, emax, sub, code):
    """The number of the refusal, or 0, and the pattern."""
    number = code_refusal(p, emax)
    if number == 0 and code >= 2 ** width(p, emax):
        number = 9
    if number:
        return number, 0
    sign, magnitude = divmod(code, 2 ** (width(p, emax) - 1))
    if not sub and 0 < magnitude < 2 ** (p - 1):
        return 10, 0
    worth = number_of(p, emax, magnitude)
    return 0, sign << 63 | (QUIET if worth is None else pattern(worth))


def packed(p, emax, sub, x):
    """The number of the refusal, or 0, and the code: the one that has the pattern's value and sign."""
    number = code_refusal(p, emax)
    if number:
        return number, 0
    k, emin = width(p, emax), 1 - emax
    sign, magnitude = divmod(x, 2**63)
    if magnitude > INFINITY:
        return 0, sign << (k - 1) | (2 * emax + 1) << (p - 1) | 2 ** (p - 2)
    # codes go up with the numbers, 2^(p-1) for each exponent, and from T on comes infinity's: the only code that
    # can be right is that of the largest number not above
    a = min(value(magnitude), power(emax + 1))
    e = max(exponent(a), emin)
    code = sign << (k - 1) | ((e - emin) << (p - 1)) + a // power(e - p + 1)
    return (0, code) if unpacked(p, emax, sub, code) == (0, x) else (8, 0)


def array_refusal(p, emax, mode, r, words, inputs, outputs):
    number = refusal(p, emax, mode, r)
    if number == 0 and outputs != inputs:
        number = 5
    if number == 0 and mode in (7, 8) and words < inputs:
        number = 6
    return number
