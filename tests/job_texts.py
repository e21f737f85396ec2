#!/usr/bin/env python3
"""job_texts.py COMMAND

Runs the command bin/wharfgrain on job texts and compares its answers, byte for byte:
  the examples, and the stored jobs of tests/jobs, with the answers beside them;
  sound texts at the hard places of many formats, texts that break one rule of the layout each, and texts that
  something was done to at random, each with the answer that is worked out here anew, from the wording of
  document 01 and by rules.py;
  and odd streams: none, one that comes byte after byte, and megabytes.
It shares nothing with the proved code. Leaves with 0 only if all agree.
"""
import os
import random
import re
import subprocess
import sys
import tempfile
import time

from rules import INFINITY, refusal, rounded

HERE = os.path.dirname(os.path.abspath(__file__))
TOP = os.path.dirname(HERE)

# the six numbers of a job text, in order, with the largest that each can be
NUMBERS = [(b'p', 9999), (b'emax', 9999), (b'sub', 1), (b'mode', 9999), (b'r', 9999), (b'n', 1024)]
DECIMAL = re.compile(rb'0|[1-9][0-9]{0,3}')
WORD = re.compile(rb'[0-9A-F]{16}')


def number_in(line, key, most):
    """The value of a line key=number, or None where the line is another."""
    name, equals, value = line.partition(b'=')
    if name != key or not equals or not DECIMAL.fullmatch(value) or int(value) > most:
        return None
    return int(value)


def word_in(line, key):
    """The value of a line key=word, or None."""
    name, equals, value = line.partition(b'=')
    return int(value, 16) if name == key and equals and WORD.fullmatch(value) else None


def values_in(text):
    """The values of a text's lines and None, or the values before its first bad line and that line's number."""
    *lines, left = text.split(b'\n')
    values, keys = [], []
    while True:
        at = len(values)
        if at == 6:
            keys = ([b'x', b'w'] if values[3] in (7, 8) else [b'x']) * values[5]
        if at >= 6 and at - 6 == len(keys):
            return values, at + 1 if lines[at:] or left else None
        if at >= len(lines):
            return values, at + 1
        value = number_in(lines[at], *NUMBERS[at]) if at < 6 else word_in(lines[at], keys[at - 6])
        if value is None:
            return values, at + 1
        values.append(value)


def answer_to(text):
    values, bad = values_in(text)
    if bad:
        return b'status=12\nat=%d\n' % bad
    p, emax, sub, mode, r, n = values[:6]
    number = refusal(p, emax, mode, r)
    if number:
        return b'status=%d\nat=0\n' % number
    places = values[6:] if mode not in (7, 8) else values[6::2]
    words = values[7::2] if mode in (7, 8) else [0] * n
    answers = [rounded(p, emax, sub, mode, r, word, x) for word, x in zip(words, places)]
    return b'status=0\nn=%d\n' % n + b''.join(b'y=%016X\n' % y for y in answers)


# ---- texts

def text_of(p, emax, sub, mode, r, xs, draw):
    """A sound text, with words that are drawn."""
    lines = [b'p=%d' % p, b'emax=%d' % emax, b'sub=%d' % sub, b'mode=%d' % mode, b'r=%d' % r, b'n=%d' % len(xs)]
    for x in xs:
        lines.append(b'x=%016X' % x)
        if mode in (7, 8):
            lines.append(b'w=%016X' % draw.getrandbits(64))
    return b''.join(line + b'\n' for line in lines)


def hard_places(p, emax, draw):
    """Patterns about the format's landmarks, each with the ones beside it, and some anywhere."""
    fields = [0, 1, 1023 - emax - p, 1023 - emax, 1024 - emax, 1023, 1023 + emax, 1024 + emax]
    spots = [min(max(field, 0), 2047) << 52 | cut for field in fields for cut in (0, 1 << max(52 - p, 0))]
    spots += [INFINITY, INFINITY + 1]
    near = [min(max(spot + by, 0), 2**63 - 1) for spot in spots for by in (-1, 0, 1)]
    chosen = draw.sample(near, 8) + [draw.getrandbits(63) for _ in range(2)]
    return [x | draw.getrandbits(1) << 63 for x in chosen]


def sound_texts(draw):
    formats = [(11, 15), (8, 127), (11, 127), (24, 127), (53, 1023), (3, 15), (2, 1), (53, 1), (2, 1023), (20, 300)]
    for mode in range(9):
        for p, emax in formats:
            sub, r = draw.getrandbits(1), draw.choice([1, 2, 10, 53])
            yield text_of(p, emax, sub, mode, r, hard_places(p, emax, draw), draw)
    for p in (0, 1, 2, 53, 54, 9999):
        for emax in (0, 1, 1023, 1024):
            for mode, r in ((0, 0), (7, 0), (7, 1), (7, 53), (7, 54), (8, 9999), (9, 1), (9999, 0)):
                yield text_of(p, emax, draw.getrandbits(1), mode, r, [draw.getrandbits(64)] * draw.randrange(3), draw)


def with_line(lines, at, line):
    """The text of these lines with another at place `at`, counted from 0."""
    return b'\n'.join(lines[:at] + [line] + lines[at + 1:]) + b'\n'


def broken_texts(draw):
    """Each rule of the layout broken by itself, in every line that it is about."""
    lines = text_of(11, 15, 1, 7, 3, [draw.getrandbits(64), draw.getrandbits(64)], draw).split(b'\n')[:-1]
    for at, line in enumerate(lines):
        key, value = line.split(b'=')
        yield with_line(lines, at, key.upper() + b'=' + value)
        yield with_line(lines, at, key + b':' + value)
        yield with_line(lines, at, key + b'==' + value)
        yield with_line(lines, at, key + value)
        for other in (b'', b'0' + value, value + b' ', b' ' + value, value + b'\r', b'+' + value, b'-0', value + b'\0'):
            yield with_line(lines, at, key + b'=' + other)
        if at < 6:
            for other in (b'00', b'000', b'12345', b'10000', b'A', b'1:', b'/1', b'1.0', b'1e1', b'0x1', b'\xb2'):
                yield with_line(lines, at, key + b'=' + other)
        else:
            for digit in b'GgaF@`/:':
                yield with_line(lines, at, key + b'=' + value[:-1] + bytes([digit]))
            yield with_line(lines, at, key + b'=' + value[1:])
    for sub in (b'2', b'9', b'01', b'10'):
        yield with_line(lines, 2, b'sub=' + sub)
    for mode in list(range(10)) + [9999]:
        for other in (7, 3):
            # the lines of mode 7, with words, and of mode 3, without, under each mode
            rows = text_of(11, 15, 1, other, 3, [0x3FF0030000000000] * 2, draw).split(b'\n')[:-1]
            yield with_line(rows, 3, b'mode=%d' % mode)
    for n in (1023, 1024, 1025, 9999):
        rows = text_of(2, 1, 1, 8, 0, [draw.getrandbits(64) for _ in range(n)], draw).split(b'\n')[:-1]
        yield b'\n'.join(rows) + b'\n'
        yield with_line(rows, 5, b'n=%d' % (n - 1))
    # the longest text that there is, and something behind it
    longest = text_of(9999, 9999, 1, 7, 9999, [0] * 1024, draw)
    yield from (longest, longest + b'\n', longest + b'x', longest + b'x=0000000000000000\n', longest[:-1])


def spoilt(text, draw):
    """The text with something done to it, which may leave it sound."""
    at, lines = draw.randrange(len(text) + 1), text.split(b'\n')
    row = draw.randrange(len(lines))
    way = draw.randrange(9)
    if way == 0:
        return text[:at]
    if way == 1:
        return text[:at] + bytes([draw.choice([0, 9, 10, 13, 32, 48, 61, 65, 97, 120, 255])]) + text[at:]
    if way == 2:
        return text[:at] + text[at + 1:]
    if way == 3:
        return text[:at] + bytes([draw.getrandbits(8)]) + text[at + 1:]
    if way == 4:
        return b'\n'.join(lines[:row] + lines[row + 1:])
    if way == 5:
        return b'\n'.join(lines[:row] + [lines[row]] + lines[row:])
    if way == 6:
        return text.replace(b'\n', b'\r\n')
    if way == 7:
        return text + draw.choice([b'\n', b'x', b'x=0000000000000000\n', b'\0'])
    name, equals, value = lines[row].partition(b'=')
    other = draw.choice([b'0' + value, value.lower(), value + b'0', b'', b' ' + value, b'+' + value, b'1025', b'8'])
    return b'\n'.join(lines[:row] + [name + equals + other] + lines[row + 1:])


def odd_texts():
    sound = b'p=11\nemax=15\nsub=1\nmode=0\nr=0\nn=0\n'
    yield from (b'', b'\n', b'\0', b'p', b'p=', b'p=11', b'\r\n', sound, sound[:-1], sound + b'\n', sound + b'\0' * 70000)
    yield from (b'x' * 3_000_000, b'\n' * 3_000_000, b'\0' * 3_000_000, bytes(range(256)) * 8000, sound * 90_000)


# ---- running and comparing

def read(name):
    with open(name, 'rb') as file:
        return file.read()


def stored(folder):
    """The jobs of a folder, with the answers beside them."""
    names = sorted(name[:-4] for name in os.listdir(folder) if name.endswith('.job'))
    answers = sorted(name[:-7] for name in os.listdir(folder) if name.endswith('.answer'))
    if names != answers:
        sys.exit('job_texts.py: in %s not every job has an answer, or not every answer a job' % folder)
    for name in names:
        yield '%s/%s' % (os.path.basename(folder), name), read('%s/%s.job' % (folder, name)), read('%s/%s.answer' % (folder, name))


def run(command, text=b'', files=()):
    ended = subprocess.run([command, *files], input=text, stdout=subprocess.PIPE, timeout=600, check=False)
    if ended.returncode:
        sys.exit('job_texts.py: %s ended with status %d' % (command, ended.returncode))
    return ended.stdout


def run_all(command, texts):
    """The answers to all texts, from one run on as many files."""
    with tempfile.TemporaryDirectory() as folder:
        files = ['%s/%d.job' % (folder, i) for i in range(len(texts))]
        for file, text in zip(files, texts):
            with open(file, 'wb') as out:
                out.write(text)
        answers = [b'status=' + part for part in run(command, files=files).split(b'status=')[1:]]
    if len(answers) != len(texts):
        sys.exit('job_texts.py: %d texts and %d answers' % (len(texts), len(answers)))
    return answers


def run_in_pieces(command, text):
    """The answer to a text that comes byte after byte."""
    with subprocess.Popen([command], stdin=subprocess.PIPE, stdout=subprocess.PIPE) as program:
        for i in range(len(text)):
            program.stdin.write(text[i:i + 1])
            program.stdin.flush()
            time.sleep(0.001)
        program.stdin.close()
        there = program.stdout.read()
    if program.returncode:
        sys.exit('job_texts.py: %s ended with status %d' % (command, program.returncode))
    return there


def compared(kind, names, texts, due, there):
    wrong = [i for i in range(len(texts)) if due[i] != there[i]]
    for i in wrong[:3]:
        print('%s: %s\n  text: %r\n  due: %r\n  answered: %r' % (kind, names[i], texts[i][:300], due[i][:200], there[i][:200]), file=sys.stderr)
    print('job texts, %s: %d, %d wrong' % (kind, len(texts), len(wrong)))
    return len(texts) > 0 and not wrong


def compare_stored(command, folder):
    names, texts, due = zip(*stored(folder))
    return compared(os.path.basename(folder), names, texts, due, run_all(command, texts))


def compare_made(command, kind, texts):
    texts = list(texts)
    due = [answer_to(text) for text in texts]
    return compared(kind, range(len(texts)), texts, due, run_all(command, texts))


def compare_streams(command):
    texts = list(odd_texts())
    there = [run(command, text) for text in texts]
    slow = read('%s/examples/document-01.job' % TOP)
    texts.append(slow)
    there.append(run_in_pieces(command, slow))
    return compared('odd streams', range(len(texts)), texts, [answer_to(text) for text in texts], there)


def main():
    if len(sys.argv) != 2:
        sys.exit('usage: job_texts.py COMMAND')
    command, draw = sys.argv[1], random.Random(1)
    sound = list(sound_texts(draw))
    bad = [spoilt(draw.choice(sound), draw) for _ in range(600)]
    sys.exit(not all([
        compare_stored(command, '%s/examples' % TOP),
        compare_stored(command, '%s/jobs' % HERE),
        compare_made(command, 'sound', sound),
        compare_made(command, 'with a broken rule', broken_texts(draw)),
        compare_made(command, 'something done to', bad),
        compare_streams(command)]))


if __name__ == '__main__':
    main()
