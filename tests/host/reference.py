"""What the entry points for C answer, worked out anew by the rules of document 01 (../rules.py): arrays are lent as
bytes, eight to a word and the low byte first, and a call gives its number and place, and what out holds afterwards.
The calls on 64-bit words answer as these do on the words' bytes. It shares nothing with the proved code.
"""
import os
import struct
import sys

sys.path.insert(1, os.path.dirname(os.path.dirname(os.path.abspath(__file__))))
from rules import code_refusal, packed, refusal, rounded, unpacked  # noqa: E402

# binary16, bfloat16, TensorFloat-32, binary32, binary64, E5M2: p and emax
KNOWN = ((11, 15), (8, 127), (11, 127), (24, 127), (53, 1023), (3, 15))


def words_of(data):
    """The whole words among the bytes."""
    count = len(data) // 8
    return struct.unpack('<%dQ' % count, data[:8 * count])


def bytes_of(words):
    return struct.pack('<%dQ' % len(words), *words)


def known(number):
    """number, p, emax and sub."""
    return (0, *KNOWN[number], 1) if number < len(KNOWN) else (11, 0, 0, 0)


def lengths_refused(given, held):
    return len(given) % 8 != 0 or len(held) % 8 != 0 or len(given) != len(held)


def round_bytes(p, emax, sub, mode, r, words, given, held):
    number = refusal(p, emax, mode, r)
    if number == 0 and lengths_refused(given, held):
        number = 5
    xs, words = words_of(given), words_of(words)
    if number == 0 and mode in (7, 8) and len(words) < len(xs):
        number = 6
    if number:
        return number, 0, held
    if mode not in (7, 8):
        words = [0] * len(xs)
    return 0, 0, bytes_of([rounded(p, emax, sub != 0, mode, r, word, x) for word, x in zip(words, xs)])


def code_bytes(one, p, emax, sub, given, held):
    """Packing or unpacking, by the rule for one entry: the lowest bad index decides."""
    number = code_refusal(p, emax)
    if number == 0 and lengths_refused(given, held):
        number = 5
    if number:
        return number, 0, held
    answers = []
    for place, entry in enumerate(words_of(given)):
        number, answer = one(p, emax, sub != 0, entry)
        if number:
            return number, place, held
        answers.append(answer)
    return 0, 0, bytes_of(answers)


def pack_bytes(p, emax, sub, given, held):
    return code_bytes(packed, p, emax, sub, given, held)


def unpack_bytes(p, emax, sub, given, held):
    return code_bytes(unpacked, p, emax, sub, given, held)
