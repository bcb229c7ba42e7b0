#!/usr/bin/env python3
"""make_rows.py N BASE [SEED]: N rows of the benchmark's day sheet, sorted by agent, customer and modem.

Writes BASE.dat, records of 63 bytes back to back (agent 10, customer 10, modem 15, amount and commission of a sign
and 13 digits each), and BASE.txt, the same with one to a line. On average 4 rows a modem, 3 modems a customer and 10
customers an agent. The same seed gives the same rows.
"""
import random
import sys


def rows_of_an_agent(chance, agent):
    for customer in range(1, chance.randint(5, 15) + 1):
        for modem in range(1, chance.randint(1, 5) + 1):
            key = ('AG%06d' % agent).ljust(10) + ('C%05d%02d' % (agent % 100000, customer)).ljust(10)
            key += '35%06d%03d%04d' % (agent % 1000000, customer, modem)
            for _ in range(chance.randint(1, 7)):
                amount = chance.randint(0, 9999999)
                yield '%s+%013d+%013d' % (key, amount, chance.randint(0, amount // 10))


def make(count, seed):
    chance = random.Random(seed)
    rows, agent = [], 0
    while len(rows) < count:
        agent += 1
        rows.extend(rows_of_an_agent(chance, agent))
    return rows[:count]


def write(base, rows):
    with open(base + '.dat', 'w') as records, open(base + '.txt', 'w') as lines:
        records.write(''.join(rows))
        lines.write('\n'.join(rows) + '\n')


if __name__ == '__main__':
    if len(sys.argv) not in (3, 4):
        sys.exit('usage: make_rows.py N BASE [SEED]')
    write(sys.argv[2], make(int(sys.argv[1]), int(sys.argv[3]) if len(sys.argv) > 3 else 20240601))
