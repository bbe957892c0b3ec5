#!/usr/bin/env python3
"""Measures what names cost in a statement: 80,000 cells with names by AS, and an ORDER BY of 8,000 of them, by the built program.

    python3 bench/names.py [--names N] [PROGRAM]

Four families of names: in order, backwards, in a random order, and names that are one to the hash of the library's maps. Of each the
processor seconds of the program, and how many times those of the names in order. Without PROGRAM it is crates/eddyql/out/eddyql.
"""
import argparse
import os
import random
import resource
import subprocess
import sys
import tempfile

TOP = os.path.dirname(os.path.dirname(os.path.abspath(__file__)))
MASK = (1 << 64) - 1
START = 0x243F6A8885A308D3
MULTIPLIER = 0x9E3779B97F4A7C15


def folded(a, b):
    product = a * b
    return (product & MASK) ^ (product >> 64)


def word(text, at):
    return int.from_bytes(text[at:at + 8], 'little')


def hashed(text):
    """The library's hash of a text of more than 8 bytes, before the byte that ends it."""
    state, at = (START + len(text)) & MASK, 0
    while len(text) - at > 16:
        state = folded(word(text, at) ^ state, word(text, at + 8) ^ MULTIPLIER)
        at += 16
    return folded(word(text, len(text) - 16) ^ state, word(text, len(text) - 8) ^ MULTIPLIER)


def is_plain(text):
    return all(32 <= byte < 127 and byte != 34 and not 65 <= byte <= 90 for byte in text)


def one_word(count, rand):
    """Names of 48 bytes. The second 8 bytes of 16 meet the state that the first 16 leave, so the 8 after them count for nothing."""
    while True:
        front = bytes(rand.choices(b'abcdefghijklmnopqrstuvwxyz', k=16))
        state = folded(word(front, 0) ^ ((START + 48) & MASK), word(front, 8) ^ MULTIPLIER)
        state = state.to_bytes(8, 'little')
        if is_plain(state):
            break
    names = [front + state + b'%08d' % number + b'0123456789abcdef' for number in range(count)]
    assert len({hashed(name) for name in names}) == 1
    return [name.decode() for name in names]


def families(count):
    rand = random.Random(7)
    ordered = ['n%047d' % number for number in range(count)]
    mixed = list(ordered)
    rand.shuffle(mixed)
    yield 'in order', ordered
    yield 'backwards', ordered[::-1]
    yield 'mixed', mixed
    yield 'one word', one_word(count, rand)


def script_of(names):
    cells = ', '.join('x AS "%s"' % name for name in names)
    order = ', '.join('"%s"' % name for name in names[::10])
    return 'SELECT %s FROM t ORDER BY %s LIMIT 0' % (cells, order)


def seconds(program, folder):
    before = resource.getrusage(resource.RUSAGE_CHILDREN)
    with open(os.path.join(folder, 'answer'), 'wb') as answer:
        subprocess.run([program, 'q.sql', 't=t.csv'], cwd=folder, stdout=answer, check=True)
    after = resource.getrusage(resource.RUSAGE_CHILDREN)
    return after.ru_utime + after.ru_stime - before.ru_utime - before.ru_stime


def main():
    parser = argparse.ArgumentParser(description=__doc__, formatter_class=argparse.RawDescriptionHelpFormatter)
    parser.add_argument('--names', type=int, default=80000)
    parser.add_argument('program', nargs='?', default=os.path.join(TOP, 'crates/eddyql/out/eddyql'))
    words = parser.parse_args()
    first = None
    with tempfile.TemporaryDirectory() as folder:
        with open(os.path.join(folder, 't.csv'), 'w') as table:
            table.write('x:int\n1\n')
        for family, names in families(words.names):
            with open(os.path.join(folder, 'q.sql'), 'w') as script:
                script.write(script_of(names))
            took = seconds(os.path.abspath(words.program), folder)
            first = first or took
            print('%-10s %7.2f s %6.1f' % (family, took, took / first))
            sys.stdout.flush()


if __name__ == '__main__':
    main()
