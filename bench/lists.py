#!/usr/bin/env python3
"""Measures what a long IN list costs, by the built program: 10,000 literals over 1,000,000 rows, beside one comparison.

    python3 bench/lists.py [--rows N] [--items N] [--rounds N] [PROGRAM]

Of each condition the least processor seconds of a few rounds, how many times those of the one comparison, and the peak of memory.
The rows that pass are few, so that the answer costs nothing. Without PROGRAM it is crates/eddyql/out/eddyql.
"""
import argparse
import os
import random
import subprocess
import sys
import tempfile

TOP = os.path.dirname(os.path.dirname(os.path.abspath(__file__)))


def conditions(items):
    rand = random.Random(7)
    numbers = rand.sample(range(10 ** 9, 2 * 10 ** 9), items)
    listed = ', '.join(str(number) for number in numbers)
    texts = ', '.join("'%d'" % number for number in numbers)
    yield 'x = 5', 'x = 5'
    yield 'x IN', 'x IN (%s, 5)' % listed
    yield 'x IN, with NULL', 'x IN (%s, NULL, 5)' % listed
    # (a NOT IN with NULL is True of no row, and so it writes none)
    yield 'x NOT IN', 'x NOT IN (%s, NULL, 5)' % listed
    yield 'd IN', 'd IN (%s, 5)' % listed
    yield 'OR', ' OR '.join('x = %d' % number for number in numbers) + ' OR x = 5'
    yield "t = '5'", "t = '5'"
    yield 't IN', "t IN (%s, '5')" % texts


def measured(program, folder, condition):
    with open(os.path.join(folder, 'q.sql'), 'w') as script:
        script.write('SELECT x FROM t WHERE ' + condition)
    with open(os.path.join(folder, 'answer'), 'wb') as answer:
        child = subprocess.Popen([program, 'q.sql', 't=t.csv'], cwd=folder, stdout=answer)
        _, status, usage = os.wait4(child.pid, 0)
    if status != 0:
        sys.exit('%s: status %s' % (condition[:40], status))
    return usage.ru_utime + usage.ru_stime, usage.ru_maxrss


def main():
    parser = argparse.ArgumentParser(description=__doc__, formatter_class=argparse.RawDescriptionHelpFormatter)
    parser.add_argument('--rows', type=int, default=1000000)
    parser.add_argument('--items', type=int, default=10000)
    parser.add_argument('--rounds', type=int, default=3)
    parser.add_argument('program', nargs='?', default=os.path.join(TOP, 'crates/eddyql/out/eddyql'))
    words = parser.parse_args()
    rand = random.Random(11)
    with tempfile.TemporaryDirectory() as folder:
        with open(os.path.join(folder, 't.csv'), 'w') as table:
            table.write('x:int,d:dec2,t:text\n')
            for _ in range(words.rows):
                number = rand.randrange(10 ** 9, 2 * 10 ** 9)
                table.write('%d,%d.50,%d\n' % (number, number, number))
        first = None
        for name, condition in conditions(words.items):
            rounds = [measured(os.path.abspath(words.program), folder, condition) for _ in range(words.rounds)]
            took = min(seconds for seconds, _ in rounds)
            first = took if first is None or name.startswith('t =') else first
            print('%-16s %8.2f s %6.2f %8d kB' % (name, took, took / first, max(memory for _, memory in rounds)))
            sys.stdout.flush()


if __name__ == '__main__':
    main()
