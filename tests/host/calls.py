"""The calls of the entry points for C that compare.py makes, by subject, each with the answer that is due by
reference.py. A subject draws what it draws from `draw`, and makes many more calls where `long` is set.
"""
import functools
import itertools
import os
import sys

import reference
from reference import KNOWN, bytes_of
from rules import INFINITE, INFINITY, K, QUIET, neighbours, number_of, packed, pattern, power, refusal, unpacked, value, width

# rows of calls on bytes, with their answers, that were worked out elsewhere
STORED = os.path.join(os.path.dirname(os.path.abspath(__file__)), 'c-bytes.txt')

# formats beside the known ones: p and emax at their edges, and formats without codes
OTHERS = ((2, 1), (53, 1), (2, 1023), (53, 1022), (52, 1023), (24, 1023), (3, 511), (4, 7), (5, 3), (2, 2), (8, 100), (20, 300))
# numbers for sub that are on; the low bytes of some are 0
ON = (1, 2, 255, 256, 2**31, 2**32, 2**63, 2**64 - 1)
HUGE = 2**64 - 1
SIGN = 2**63
# the byte that out holds before a call
HELD = b'\xee'


# ---- cases: the commands of one call, by entry point, and the answer that is due

def hexed(data):
    return data.hex() or '-'


def array_case(job, numbers, *arrays, outlen=None):
    """A call on these arrays of bytes, words and inputs or inputs alone, and on words too where all are whole."""
    held = HELD * (len(arrays[-1]) if outlen is None else outlen)
    number, place, out = getattr(reference, job + '_bytes')(*numbers, *arrays, held)
    front = ' '.join([job, *map(str, numbers), *map(hexed, arrays)])
    commands = [(job + '_bytes', 'c%s %d' % (front, len(held)))]
    if all(len(data) % 8 == 0 for data in (*arrays, held)):
        commands.append((job, 'w%s %d' % (front, len(held) // 8)))
    return commands, '%d %d %s' % (number, place, hexed(out))


def known_case(number):
    return [('known', 'known %d' % number)], '%d %d %d %d' % reference.known(number)


def rounding(f, mode, r, words, xs):
    return array_case('round', (*f, mode, r), bytes_of(words), bytes_of(xs))


def coding(job, f, entries):
    return array_case(job, f, bytes_of(entries))


# ---- patterns

def last_pattern(number):
    """The last magnitude pattern whose value is not above the number."""
    below = max(number.bit_length() - 53, 0)
    return pattern(number >> below << below)


def landmarks(p, emax):
    """Where the rules change, and the quarters of steps about there: zeta, with sub and without, the smallest
    normal number, xmax, T, and both ends of some exponents between."""
    emin = 1 - emax
    for e in {emin - 1, emin, emin + 1, min(emax, 0), min(emax, 1), emax - 1, emax}:
        step = power(max(e, emin) - p + 1)
        for quarters in range(9):
            yield power(e) + quarters * step // 4
            yield power(e + 1) - quarters * step // 4
    for zeta in (power(emin - p + 1), power(emin)):
        yield from (quarters * zeta // 4 for quarters in range(14))
    yield from (power(emax + 1), power(emax + 1) + 1, power(emax + 2), power(emax + 1) * 3 // 2)


@functools.lru_cache(maxsize=64)
def hard_places(p, emax):
    """The patterns of the landmarks and of binary64's own, with those beside them, in both signs."""
    spots = {last_pattern(number) for number in landmarks(p, emax) if number < INFINITE}
    spots |= {0, 1, 2**52, INFINITY, INFINITY + 1, QUIET, SIGN - 2}
    near = {spot + by for spot in spots for by in (-1, 0, 1)}
    return tuple(sign | x for x in sorted(near) if x >= 0 for sign in (0, SIGN))


def source_subnormals():
    """First digits at every place below 2^-1022."""
    return tuple(sign | 2**i + by for i in range(53) for by in (-1, 0, 1) for sign in (0, SIGN))


def ordinary(p, emax, draw):
    """A pattern between the smallest normal number and T, its low digits often zero."""
    field = 1023 + draw.randint(max(1 - emax, -1022), emax)
    fraction = draw.getrandbits(52) & -1 << draw.choice((0, 0, 52 - p, 53 - p, 30) if p < 53 else (0,))
    return draw.getrandbits(1) << 63 | field << 52 | fraction


def mixed(p, emax, n, draw):
    """Ordinary numbers, with hard places and any patterns among them."""
    hard = hard_places(p, emax)
    kinds = (lambda: ordinary(p, emax, draw), lambda: draw.choice(hard), lambda: draw.getrandbits(64))
    return [draw.choices(kinds, (6, 3, 1))[0]() for _ in range(n)]


def drawn_words(n, draw):
    return [draw.getrandbits(64) for _ in range(n)]


def deciding_words(p, emax, sub, r, x, draw):
    """Words of mode 7 that just leave x at lo and just take it to hi: K + u is 2^r - 1, and 2^r."""
    a, k = value(x % SIGN), 0
    if a < power(emax + 1):
        lo, hi, _ = neighbours(a, p, emax, sub)
        k = K(lo, hi, a, r)
    above = draw.getrandbits(64) >> r << r
    return above | 2**r - 1 - k, above | (2**r - k) % 2**r


# ---- the calls, by subject

def known_formats(_draw, _long):
    for number in (*range(9), 10, 11, 255, 256, 2**31, *(2**32 + n for n in range(7)), 2**63, 2**63 + 5, HUGE):
        yield known_case(number)


def stored_calls(_draw, _long):
    """The stored calls, with the stored answers, which have to be the reference's too."""
    with open(STORED, encoding='ascii') as rows:
        for row in rows:
            command, _, answer = row.rstrip('\n').partition(' -> ')
            name, *fields, outlen = command.split()
            numbers = tuple(map(int, fields[:5 if name == 'cround' else 3]))
            arrays = [bytes.fromhex(field.replace('-', '')) for field in fields[len(numbers):]]
            commands, due = array_case(name[1:], numbers, *arrays, outlen=int(outlen))
            if due != answer or commands[0][1] != command:
                sys.exit('calls.py: the reference differs from the stored row %s  reference: %s' % (row, due))
            yield commands, answer


def rounded_in_all_modes(p, emax, sub, xs, rs, draw):
    """Modes that look at no word are given none or some, and modes that look at no r any."""
    f = (p, emax, draw.choice(ON) if sub else 0)
    for mode in range(7):
        yield rounding(f, mode, draw.choice((0, 1, 53, 54, HUGE)), drawn_words(draw.randrange(3), draw), xs)
    for r in rs:
        words = [deciding_words(p, emax, sub, r, x, draw) for x in xs]
        for side in zip(*words):
            yield rounding(f, 7, r, side, xs)
    for odd in (0, 1):
        yield rounding(f, 8, draw.choice((0, 54, HUGE)), [word & -2 | odd for word in drawn_words(len(xs) + 1, draw)], xs)


def hard_rounding(draw, long):
    formats = [*KNOWN, *OTHERS, (draw.randint(2, 53), draw.randint(1, 1023))]
    if long:
        formats += [(p, emax) for p in range(2, 54) for emax in (1, 2, 7, 15, 100, 127, 511, 1000, 1022, 1023)]
    for p, emax in formats:
        xs = hard_places(p, emax) + (source_subnormals() if emax > 1000 else ())
        for sub in (False, True):
            yield from rounded_in_all_modes(p, emax, sub, xs, (1, 2, 3, 10, 24, 52, 53), draw)


def midpoints(p, emax):
    """Halfway between all neighbours of a format with few codes, and beside, in both signs."""
    numbers = [number_of(p, emax, code) for code in range((2 * emax + 1) << (p - 1))] + [power(emax + 1)]
    middles = [last_pattern((a + b) // 2) for a, b in zip(numbers, numbers[1:])]
    return [sign | middle + by for middle in middles for by in (-1, 0, 1) for sign in (0, SIGN)]


def all_midpoints(draw, long):
    for p, emax in ((2, 1), (4, 7), (3, 15), *(((11, 15), (8, 127)) if long else ())):
        xs = midpoints(p, emax)
        for sub in (False, True):
            yield from rounded_in_all_modes(p, emax, sub, xs, range(1, 54) if p == 4 else (1, 2, 53), draw)


def many_lengths(draw, _long):
    lengths = (0, 1, 2, 3, 7, 8, 31, 32, 33, 39, 40, 41, 71, 72, 73, 255, 256, 257, 287, 288, 289, 1000)
    for (p, emax), n in itertools.product(((11, 15), (8, 127), (3, 15), (53, 1023)), lengths):
        for mode in range(9):
            f, xs = (p, emax, draw.choice((0, *ON))), mixed(p, emax, n, draw)
            yield rounding(f, mode, draw.randint(1, 53), drawn_words(n + draw.randrange(2), draw), xs)
        xs = numbers_of(p, emax, n, draw)
        yield coding('pack', (p, emax, 1), xs)
        yield coding('unpack', (p, emax, 1), [packed(p, emax, True, x)[1] for x in xs])


def one_odd_place(draw, long):
    """Ordinary numbers, and among them one that is not: too small, too large, zero, infinite or no number."""
    for p, emax in ((11, 15), *(((8, 127), (3, 15)) if long else ())):
        odd = [last_pattern(number) for number in (power(1 - emax) - 1, power(2 - emax - p) // 2, power(emax + 1))]
        odd += [last_pattern(power(emax + 1) - 1), 0, SIGN, INFINITY, INFINITY + 1]
        for mode, place in itertools.product(range(9), (0, 1, 31, 32, 33, 255, 256, 257, 258, 259, 260, 287, 288, 299)):
            xs = [ordinary(p, emax, draw) for _ in range(300)]
            xs[place] = draw.choice(odd) | draw.getrandbits(1) << 63
            yield rounding((p, emax, 1), mode, 9, drawn_words(300, draw), xs)


def long_arrays(draw, long):
    """Every place is worked on, and one bad entry at the end is found, with out left alone."""
    n = 2**20 if long else 100_000
    for mode in range(9) if long else (0, 7):
        xs = mixed(11, 15, 5000, draw)
        yield rounding((11, 15, 1), mode, 11, drawn_words(n, draw), [draw.choice(xs) for _ in range(n)])
    xs = numbers_of(24, 127, 5000, draw)
    xs = [draw.choice(xs) for _ in range(n)]
    codes = [packed(24, 127, True, x)[1] for x in xs]
    yield coding('pack', (24, 127, 1), xs)
    yield coding('pack', (24, 127, 1), xs[:-1] + [1])
    yield coding('unpack', (24, 127, 1), codes)
    yield coding('unpack', (24, 127, 1), codes[:-1] + [2**32])


def refusals(draw, _long):
    """Sound and damaged arguments in every combination: the first refusal that applies is given. Some numbers are
    sound but for what stands above their low 32 digits."""
    ps = (11, 0, 1, 2, 53, 54, 2**32 + 11, HUGE)
    emaxes = (15, 0, 1, 14, 1023, 1024, 2**32 + 15, HUGE)
    modes_and_rs = (
        (0, 0), (3, HUGE), (7, 3), (7, 0), (7, 53), (7, 54), (7, 2**32 + 3), (7, HUGE), (8, 0), (9, 3), (2**32, 0),
        (2**32 + 7, 3), (HUGE, 0))
    # bytes of words, inputs and outputs
    lengths = (
        (16, 16, 16), (24, 16, 16), (16, 16, 8), (16, 16, 24), (8, 16, 16), (8, 16, 24), (15, 16, 16), (0, 8, 0), (0, 0, 8),
        (0, 8, 8), (16, 15, 16), (16, 16, 15), (0, 15, 15), (0, 0, 0))
    entries = (
        ('pack', (0x3FF0000000000000, INFINITY)), ('pack', (0, 1)), ('unpack', (0, 0x3C00)), ('unpack', (0, HUGE)))
    for p, emax, (mode, r), (words, inputs, outputs) in itertools.product(ps, emaxes, modes_and_rs, lengths):
        data = bytes_of(drawn_words(3, draw))[:words], bytes_of([0x3FF0030000000000, 1])[:inputs]
        yield array_case('round', (p, emax, draw.choice((0, *ON)), mode, r), *data, outlen=outputs)
    for p, emax, (_, inputs, outputs), (job, pair) in itertools.product(ps, emaxes, lengths, entries):
        yield array_case(job, (p, emax, draw.choice((0, *ON))), bytes_of(pair)[:inputs], outlen=outputs)


def ragged_lengths(draw, _long):
    """Every number of bytes beyond whole words, of inputs, outputs and words."""
    xs, ones, codes = (bytes_of([entry] * 3) for entry in (0x3FF0030000000000, 0x3FF0000000000000, 0x3C00))
    for whole, inputs, outputs in itertools.product((0, 1, 2), range(8), range(8)):
        given, outlen = 8 * whole + inputs, 8 * whole + outputs
        for mode in (0, 7, 8):
            yield array_case('round', (11, 15, 1, mode, 3), bytes_of(drawn_words(4, draw)), xs[:given], outlen=outlen)
        yield array_case('pack', (11, 15, 1), ones[:given], outlen=outlen)
        yield array_case('unpack', (11, 15, 1), codes[:given], outlen=outlen)
    for whole, extra, inputs, mode in itertools.product((0, 1, 2), range(8), (0, 1, 2), (0, 7, 8)):
        words = bytes_of(drawn_words(3, draw))[:8 * whole + extra]
        yield array_case('round', (11, 15, 1, mode, 3), words, xs[:8 * inputs])


def numbers_for_sub(_draw, _long):
    """0 is off and every other number on, where it makes a difference."""
    for sub, (p, emax) in itertools.product((0, *ON, 2**32 + 1, 2**63 + 1), ((11, 15), (2, 1), (53, 1))):
        f, below = (p, emax, sub), last_pattern(power(1 - emax) * 3 // 4)
        for mode in range(9):
            yield rounding(f, mode, 1, [1] * 2, [below, SIGN | below])
        yield coding('pack', f, [below])
        yield coding('unpack', f, [1])


# ---- codes

CODED = (*KNOWN, (2, 1), (53, 1), (2, 1023), (52, 1023), (53, 511), (3, 511), (4, 7), (20, 3))


def hard_codes(p, emax):
    """The codes about each change of a field, in both signs, and those about 2^k."""
    k = width(p, emax)
    infinite = (2 * emax + 1) << (p - 1)
    spots = (0, 2 ** (p - 1), emax << (p - 1), infinite, infinite + 2 ** (p - 2), 2 ** (k - 1))
    near = {spot + by + sign for spot in spots for by in (-1, 0, 1) for sign in (0, 2 ** (k - 1))}
    near |= {2**k - 1, 2**k, 2**k + 1, 2**k + 2 ** (p - 1), 2**63, 2**63 + 1, HUGE}
    return [code for code in sorted(near) if 0 <= code <= HUGE]


def numbers_of(p, emax, n, draw):
    """Patterns that pack, with sub."""
    codes = [draw.getrandbits(width(p, emax)) for _ in range(n)]
    return [unpacked(p, emax, True, code)[1] for code in codes]


def with_bad_ones(good, bad, draw):
    """Good entries with a bad one at the first, a middle and the last place, and with another one behind it."""
    for place in (0, 1, len(good) // 2, len(good) - 1):
        behind = draw.randint(place, len(good))
        one = good[:place] + [draw.choice(bad)] + good[place:]
        yield one
        yield one[:behind + 1] + [draw.choice(bad)] + one[behind + 1:]
    yield good + [draw.choice(bad)]


def hard_coding(draw, _long):
    """Every hard entry by itself, then the good ones together, with bad ones among them."""
    for (p, emax), sub in itertools.product(CODED, (0, 1)):
        f = (p, emax, sub and draw.choice(ON))
        for job, one, entries in (('pack', packed, hard_places(p, emax)), ('unpack', unpacked, hard_codes(p, emax))):
            for entry in entries:
                yield coding(job, f, [entry])
            good = [entry for entry in entries if one(p, emax, sub != 0, entry)[0] == 0]
            bad = [entry for entry in entries if one(p, emax, sub != 0, entry)[0] != 0]
            yield coding(job, f, good)
            if bad:
                for spoilt in with_bad_ones(good, bad, draw):
                    yield coding(job, f, spoilt)


def all_codes(_draw, long):
    """Every code of small formats unpacked, and packed back; those that are refused without sub one by one."""
    for p, emax in ((4, 7), (3, 15), (11, 15), (8, 127), *(((11, 127),) if long else ())):
        codes = range(2 ** width(p, emax))
        for sub in (0, 1):
            f, there = (p, emax, sub), [unpacked(p, emax, sub == 1, code) for code in codes]
            good = [code for code in codes if there[code][0] == 0]
            yield coding('unpack', f, good)
            yield coding('pack', f, [there[code][1] for code in good])
            for code in codes:
                if there[code][0]:
                    yield coding('unpack', f, [code])
                    yield coding('pack', f, [unpacked(p, emax, True, code)[1]])


# ---- drawn calls

def drawn_format(draw):
    """Mostly sound, and often with codes."""
    coded, other = (draw.randint(2, 53), 2 ** draw.randint(1, 10) - 1), (draw.randint(2, 53), draw.randint(1, 1023))
    p, emax = draw.choice((*KNOWN, *OTHERS, coded, other))
    if draw.random() < 0.02:
        p = draw.choice((0, 1, 54, HUGE, draw.getrandbits(64)))
    if draw.random() < 0.02:
        emax = draw.choice((0, 1024, HUGE, draw.getrandbits(64)))
    return p, emax


def drawn_entries(job, p, emax, n, draw):
    """Entries of which, in a call that packs or unpacks, mostly all are good."""
    if refusal(p, emax, 0, 0):
        return drawn_words(n, draw)
    if job == 'round' or width(p, emax) is None or draw.random() < 0.2:
        return mixed(p, emax, n, draw)
    if job == 'pack':
        return numbers_of(p, emax, n, draw)
    return [draw.getrandbits(width(p, emax)) for _ in range(n)]


def drawn_case(draw):
    p, emax = drawn_format(draw)
    sub, n, job = draw.choice((0, 0, *ON)), draw.randrange(12), draw.choice(('round', 'round', 'pack', 'unpack'))
    given = bytes_of(drawn_entries(job, p, emax, n, draw)) + bytes(draw.choice((0,) * 60 + tuple(range(1, 8))))
    outlen = max(len(given) + draw.choice((0,) * 40 + (-8, -1, 1, 8)), 0)
    if job != 'round':
        return array_case(job, (p, emax, sub), given, outlen=outlen)
    mode = draw.choice((*range(9),) * 5 + (9, HUGE, draw.getrandbits(64)))
    r = draw.choice((draw.randint(1, 53),) * 9 + (0, 54, HUGE))
    words = bytes_of(drawn_words(n + 2, draw))[:max(8 * n + draw.choice((0, 0, 0, 3, 7, 8, 16, -1, -8)), 0)]
    return array_case('round', (p, emax, sub, mode, r), words, given, outlen=outlen)


def drawn_calls(draw, long):
    for _ in range(100_000 if long else 4000):
        yield drawn_case(draw)


SUBJECTS = (
    known_formats, stored_calls, numbers_for_sub, ragged_lengths, refusals, hard_rounding, all_midpoints,
    many_lengths, one_odd_place, hard_coding, all_codes, long_arrays, drawn_calls)
