#!/usr/bin/env python3
"""compare.py [--long] [--seed N] COMMAND...

Makes the calls of calls.py by COMMAND, which runs the driver that driver.c is, and compares every answer, each byte
of out included, with the one that is due. Prints how many calls of each entry point were compared and how many
differ, and leaves with 0 only if there were some of each, and of each subject, and none differs. Progress and the
first differences go to standard error.

  --long    many more calls, with arrays of 2^20 numbers; takes some minutes
  --seed N  draws the calls by another seed than 1
"""
import argparse
import collections
import random
import subprocess
import sys
import time

from calls import SUBJECTS

ENTRIES = ('known', 'round', 'pack', 'unpack', 'round_bytes', 'pack_bytes', 'unpack_bytes')


def batches(cases):
    """Lists of commands with their entry points and answers, of some megabytes each."""
    batch, size = [], 0
    for commands, due in cases:
        for entry, command in commands:
            batch.append((entry, command, due))
            size += len(command)
        if size > 4_000_000:
            yield batch
            batch, size = [], 0
    if batch:
        yield batch


def answers_to(driver, commands):
    text = ''.join(command + '\n' for command in commands).encode()
    try:
        ended = subprocess.run(driver, input=text, stdout=subprocess.PIPE, timeout=600, check=False)
    except (OSError, subprocess.TimeoutExpired) as fault:
        sys.exit('compare.py: the driver cannot be run: %s' % fault)
    answers = ended.stdout.decode('ascii').split('\n')[:-1]
    if ended.returncode or len(answers) != len(commands):
        command = commands[len(answers)] if len(answers) < len(commands) else 'the end'
        sys.exit('compare.py: the driver ended with status %d at: %s' % (ended.returncode, shown(command, 0)))
    return answers


def shown(text, place):
    """The text, with long arrays cut to their entry at this place."""
    cut = (field if len(field) <= 2000 else '[%d: %s]' % (place, field[16 * place:16 * place + 16]) for field in text.split(' '))
    return ' '.join(cut)


def show_difference(command, due, answer):
    outs = zip(due.split(' ')[-1], (answer.split(' ') + ['', ''])[2])
    place = next((i // 16 for i, (a, b) in enumerate(outs) if a != b), 0)
    for what, text in (('differs: ', command), ('  due:      ', due), ('  answered: ', answer)):
        print(what + shown(text, place), file=sys.stderr)


def compare(driver, seed, long):
    """How many calls of each entry point were compared, how many numbers came out, and how many calls differ."""
    calls, numbers, differ, start = collections.Counter(), 0, 0, time.time()
    for subject in SUBJECTS:
        name, told, before = subject.__name__.replace('_', ' '), time.time(), sum(calls.values())
        for batch in batches(subject(random.Random('%d %s' % (seed, name)), long)):
            answers = answers_to(driver, [command for _, command, _ in batch])
            for (entry, command, due), answer in zip(batch, answers):
                calls[entry] += 1
                numbers += len(due) // 16 if due.startswith('0 0 ') else 0
                if answer != due:
                    differ += 1
                    if differ <= 5:
                        show_difference(command, due, answer)
            if time.time() - told > 10:
                told = time.time()
                tell(name, calls, differ, told - start)
        if sum(calls.values()) == before:
            sys.exit('compare.py: %s: there are none' % name)
        tell(name + ', done', calls, differ, time.time() - start)
    return calls, numbers, differ


def tell(name, calls, differ, seconds):
    print('host calls: %s: %d calls in all, %d differ, %d s' % (name, sum(calls.values()), differ, seconds), file=sys.stderr)


def main():
    options = argparse.ArgumentParser(usage='compare.py [--long] [--seed N] COMMAND...')
    options.add_argument('--long', action='store_true', help='many more of all; takes some minutes')
    options.add_argument('--seed', type=int, default=1, help='draw by another seed than 1')
    options.add_argument('driver', nargs='+', help='the words that run the driver')
    chosen = options.parse_args()
    calls, numbers, differ = compare(chosen.driver, chosen.seed, chosen.long)
    counts = ', '.join('%s %d' % (entry, calls[entry]) for entry in ENTRIES)
    print('host calls, seed %d: %s; %d numbers; %d differ' % (chosen.seed, counts, numbers, differ))
    sys.exit(differ != 0 or not all(calls[entry] for entry in ENTRIES))


if __name__ == '__main__':
    main()
