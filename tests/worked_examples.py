#!/usr/bin/env python3
"""worked_examples.py VECTORS COUNTS FILE...

Reads the rows of code vectors that the program of the crate vectors works out, with the text of counts that it
has to write, and the texts that the programs of the crates blackboard and trials have to write, works out every answer
in them anew, by rules.py, and compares; published codes are compared with the numbers that are published of
them, too. Leaves with 0 only if each text has at least one answer and all agree.
"""
import re
import sys

from rules import (
    INFINITE, INFINITY, K, QUIET, array_refusal, code_refusal, neighbours, number_of, packed, pattern,
    power, refusal, rounded, unpacked, value, width)

# By p and emax, the numbers that are published of codes without a sign, in the units of rules.py: zero, the smallest
# and the largest subnormal number, the smallest normal one, the nearest to 1/3, the last below 1, 1, the next, 2,
# the nearest to pi, the largest number, and infinity; not each of them in every format.
PUBLISHED = {
    # binary16
    (11, 15): {
        0x0000: 0, 0x0001: power(-24), 0x03FF: 1023 * power(-24), 0x0400: power(-14), 0x3555: 1365 * power(-12),
        0x3BFF: 2047 * power(-11), 0x3C00: power(0), 0x3C01: 1025 * power(-10), 0x7BFF: 65504 * power(0),
        0x7C00: INFINITE},
    # bfloat16
    (8, 127): {
        0x0000: 0, 0x0001: power(-133), 0x007F: 127 * power(-133), 0x0080: power(-126), 0x3EAB: 171 * power(-9),
        0x3F80: power(0), 0x3F81: 129 * power(-7), 0x4000: power(1), 0x4049: 201 * power(-6), 0x7F7F: 255 * power(120),
        0x7F80: INFINITE},
    # TensorFloat-32
    (11, 127): {
        0x00000: 0, 0x00001: power(-136), 0x003FF: 1023 * power(-136), 0x00400: power(-126), 0x1FC00: power(0),
        0x1FC01: 1025 * power(-10), 0x3FBFF: 2047 * power(117), 0x3FC00: INFINITE},
    # binary32
    (24, 127): {
        0x00000000: 0, 0x00000001: power(-149), 0x007FFFFF: 8388607 * power(-149), 0x00800000: power(-126),
        0x3EAAAAAB: 11184811 * power(-25), 0x3F7FFFFF: power(0) - power(-24), 0x3F800000: power(0),
        0x3F800001: power(0) + power(-23), 0x40000000: power(1), 0x40490FDB: 13176795 * power(-22),
        0x7F7FFFFF: 16777215 * power(104), 0x7F800000: INFINITE},
    # binary64
    (53, 1023): {
        0x0000000000000000: 0, 0x0000000000000001: power(-1074), 0x000FFFFFFFFFFFFF: power(-1022) - power(-1074),
        0x0010000000000000: power(-1022), 0x3FD5555555555555: 6004799503160661 * power(-54), 0x3FF0000000000000: power(0),
        0x3FF0000000000001: power(0) + power(-52), 0x4000000000000000: power(1),
        0x400921FB54442D18: 884279719003555 * power(-48), 0x7FEFFFFFFFFFFFFF: power(1024) - power(971),
        0x7FF0000000000000: INFINITE},
    # E5M2
    (3, 15): {
        0x00: 0, 0x01: power(-16), 0x03: 3 * power(-16), 0x04: power(-14), 0x3C: power(0), 0x3D: 5 * power(-2),
        0x7B: 57344 * power(0), 0x7C: INFINITE},
}


def as_published(p, emax, code, x):
    """Whether the pattern is that of the number that is published of the code, if there is one."""
    sign, magnitude = divmod(code, 2 ** (width(p, emax) - 1))
    number = PUBLISHED.get((p, emax), {}).get(magnitude)
    return number is None or x == sign << 63 | pattern(number)


def array_answers(line):
    """What the output of an array call holds afterwards, or None if the report on the line is wrong."""
    p, emax, sub, mode, r = map(int, line.groups()[:5])
    words, xs, held = ([int(n, 16) for n in line[k].split()] for k in (6, 7, 8))
    number = array_refusal(p, emax, mode, r, len(words), len(xs), len(held))
    if (int(line[9]), int(line[10])) != (number, 0):
        return None
    if number:
        return held
    words += [0] * len(xs)
    return [rounded(p, emax, sub == 1, mode, r, w, x) for w, x in zip(words, xs)]


def total_answers(line):
    """The answers to one input with each random number, or None if what they add up to is not on the line."""
    p, emax, sub, r = map(int, line.groups()[:4])
    x, number, added, chopped = int(line[5], 16), int(line[6]), int(line[7], 16), int(line[8], 16)
    answers = [rounded(p, emax, sub == 1, 7, r, u, x) for u in range(2**r)]
    a = value(x & (2**63 - 1))
    lo, hi, _ = neighbours(a, p, emax, sub == 1)
    total = 2**r * lo + K(lo, hi, a, r) * (hi - lo)
    # a line counts in units of the input's last digit
    unit = power(max((x >> 52) % 2**11, 1) - 1075)
    exact = sum(value(y & (2**63 - 1)) for y in answers)
    signs = {y >> 63 for y in answers}
    if number != 0 or signs != {x >> 63} or not added * unit == chopped * unit == exact == total:
        return None
    return answers


def call_answers(line):
    # half a step above 1 in binary16, with subnormals and word 0
    p, emax, mode, r, number = map(int, line.groups())
    if number != refusal(p, emax, mode, r):
        return None
    return [0 if number else rounded(p, emax, True, mode, r, 0, 0x3FF0020000000000)]


def draw_answers(line):
    p, emax, sub, r = map(int, line.groups()[:4])
    return [rounded(p, emax, sub == 1, 7, r, int(line[5], 16), int(line[6], 16))]


def row_answers(line):
    p, emax, sub = map(int, line.groups()[:3])
    calls = [(mode, 0, 0) for mode in range(7)] + [(7, 2, word) for word in range(4)] + [(8, 0, 0), (8, 0, 1)]
    return [rounded(p, emax, sub == 1, mode, r, word, int(line[4], 16)) for mode, r, word in calls]


def pack_answers(line):
    p, emax, sub = map(int, line.groups()[:3])
    x = int(line[4], 16)
    number, code = packed(p, emax, sub == 1, x)
    if number != int(line[5]) or (number == 0 and not as_published(p, emax, code, x)):
        return None
    return [code]


def unpack_answers(line):
    p, emax, sub = map(int, line.groups()[:3])
    code = int(line[4], 16)
    number, x = unpacked(p, emax, sub == 1, code)
    if number != int(line[5]) or (number == 0 and not as_published(p, emax, code, x)):
        return None
    return [x]


def code_array_answers(line):
    """What the output of a call that packs or unpacks holds afterwards, or None if the report on the line is wrong."""
    one = {'pack': packed, 'unpack': unpacked}[line[1]]
    p, emax, sub = map(int, line.groups()[1:4])
    given, held = ([int(n, 16) for n in line[k].split()] for k in (5, 6))
    number, place = code_refusal(p, emax), 0
    if number == 0 and len(held) != len(given):
        number = 5
    answers = [] if number else [one(p, emax, sub == 1, n) for n in given]
    bad = [i for i, (refused, _) in enumerate(answers) if refused]
    if bad:
        number, place = answers[min(bad)][0], min(bad)
    if (int(line[7]), int(line[8])) != (number, place):
        return None
    return held if number else [answer for _, answer in answers]


def sweep_answers(line):
    """All patterns of a format mixed into one number, or None if a count on the line is wrong."""
    p, emax, sub, codes = map(int, line.groups()[:4])
    if code_refusal(p, emax) or codes != 2 ** width(p, emax):
        return None
    half = codes // 2
    there = [unpacked(p, emax, sub == 1, code) for code in range(codes)]
    xs = {code: x for code, (number, x) in enumerate(there) if number == 0}
    numbers = {x: code for code, x in xs.items() if x % 2**63 <= INFINITY}
    nans = [code for code, x in xs.items() if x % 2**63 == QUIET]
    upward = [number_of(p, emax, code) for code in sorted(numbers.values()) if code < half]
    counts = (
        sum(number == 10 for number, _ in there),
        # every number and infinity comes back, and of the NaNs what is quiet already
        len(numbers) + sum(packed(p, emax, sub == 1, xs[code]) == (0, code) for code in nans),
        len(nans),
        sum(a < b for a, b in zip(upward, upward[1:])),
        sum((x + 1) % 2**63 <= INFINITY and x + 1 not in numbers for x in xs.values()))
    if tuple(map(int, line.groups()[4:])) != counts:
        return None
    mix = 0
    for _, x in there:
        mix = ((mix << 1 | mix >> 63) + x) % 2**64
    return [mix]


# how a line begins, and what works out the answers behind its y=
FORMAT, HEX, LIST = r'p=(\d+) emax=(\d+) sub=([01])', '([0-9a-f]{16})', '((?: [0-9a-f]{16})*)'
KINDS = (
    (r'p=(\d+) emax=(\d+) mode=(\d+) r=(\d+) number=(\d+)', call_answers),
    (FORMAT + r' r=(\d+) w=' + HEX + ' x=' + HEX, draw_answers),
    (FORMAT + ' x=' + HEX, row_answers),
    (FORMAT + r' mode=(\d+) r=(\d+) w=' + LIST + ' x=' + LIST + ' held=' + LIST + r' number=(\d+) place=(\d+)', array_answers),
    (FORMAT + r' mode=7 r=(\d+) x=' + HEX + r' number=(\d+) sum=' + HEX + ' chopped=' + HEX + ' same=1', total_answers),
    (FORMAT + ' pack=' + HEX + r' number=(\d+)', pack_answers),
    (FORMAT + ' unpack=' + HEX + r' number=(\d+)', unpack_answers),
    ('(pack|unpack) ' + FORMAT + ' given=' + LIST + ' held=' + LIST + r' number=(\d+) place=(\d+)', code_array_answers),
    (FORMAT + r' codes=(\d+) refused=(\d+) back=(\d+) quiet=(\d+) ordered=(\d+) alone=(\d+)', sweep_answers),
)


def due(line):
    """The answers that belong on a line behind its y=, or None if the rest of the line is wrong."""
    for form, answers in KINDS:
        parts = re.fullmatch(form + ' y=.*', line)
        if parts:
            return answers(parts)
    return None


def check(name):
    """Compares every line of a text, prints the counts, and says whether all is right."""
    try:
        with open(name, encoding='ascii') as text:
            lines = text.read().splitlines()
    except (OSError, UnicodeDecodeError) as fault:
        sys.exit('worked_examples.py: %s' % fault)
    answers = wrong = 0
    for number, line in enumerate(lines, 1):
        there, right = line.partition('y=')[2].split(), due(line)
        right = None if right is None else ['%016x' % y for y in right]
        answers += len(right or [])
        if there != right:
            wrong += 1
            words = 'another line' if right is None else ' '.join(right) or 'no answer'
            print('%s:%d: %s\n  due: %s' % (name, number, line, words), file=sys.stderr)
    print('worked examples of %s: %d answers, %d lines wrong' % (name, answers, wrong))
    return answers > 0 and wrong == 0


def check_vectors(rows, counts):
    """Works out every row of code vectors anew, and compares how many there are with the text of counts."""
    form = re.compile(r'(pack|unpack) (\d+) (\d+) ([01]) ([0-9A-F]{16}) -> (\d+) 0 ([0-9A-F]{16})')
    calls, there, wrong = {'pack': packed, 'unpack': unpacked}, {'pack': 0, 'unpack': 0}, 0
    with open(rows, encoding='ascii') as text:
        for number, line in enumerate(text, 1):
            row = form.fullmatch(line.rstrip('\n'))
            if row:
                there[row[1]] += 1
                p, emax, sub = int(row[2]), int(row[3]), row[4] == '1'
            if not row or calls[row[1]](p, emax, sub, int(row[5], 16)) != (int(row[6]), int(row[7], 16)):
                wrong += 1
                print('%s:%d: %s' % (rows, number, line.rstrip('\n')), file=sys.stderr)
    due = ''.join('%s rows=%d right=%d\n' % (call, n, n) for call, n in there.items()) + 'strange rows=0\n'
    with open(counts, encoding='ascii') as text:
        same = text.read() == due
    print('code vectors of %s: %d rows, %d wrong, counts %s' % (rows, sum(there.values()), wrong, 'right' if same else 'wrong'))
    return same and wrong == 0 and all(there.values())


def main():
    if len(sys.argv) < 4:
        sys.exit('usage: worked_examples.py VECTORS COUNTS FILE...')
    try:
        vectors = check_vectors(sys.argv[1], sys.argv[2])
    except (OSError, UnicodeDecodeError) as fault:
        sys.exit('worked_examples.py: %s' % fault)
    sys.exit(not all([vectors] + [check(name) for name in sys.argv[3:]]))


if __name__ == '__main__':
    main()
