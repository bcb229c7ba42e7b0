#!/usr/bin/env python3
"""run.py: one day sheet by the thin program, GnuCOBOL, awk and Python, side by side; README.md tells more."""
import argparse
import filecmp
import os
import re
import resource
import shutil
import subprocess
import sys
import time

HERE = os.path.dirname(os.path.abspath(__file__))
ROOT = os.path.dirname(HERE)

# Rows by these seeds do not end near a page's end, where GnuCOBOL misplaces the last footings.
SEEDS = {1000000: 20240601}
SEED = 20240602

# Instructions a row: those of so many rows, less those of one row.
COUNTED_ROWS = 20000


def source(name):
    return os.path.join(HERE, name)


class Peer:
    """A program that prints the sheet: its name and its command for rows and an output file."""

    def __init__(self, name, command, mapped=False):
        self.name = name
        self.command = command
        self.mapped = mapped

    def run(self, rows, out, before=()):
        """Runs it, after the words of another program that watches it; gives that one's standard error."""
        command, to_stdout = self.command(rows, out)
        with open(out if to_stdout else os.devnull, 'wb') as stdout:
            done = subprocess.run([*before, *command], stdout=stdout, stderr=subprocess.PIPE, text=True)
        if done.returncode:
            sys.exit('%s: exit code %d\n%s' % (self.name, done.returncode, done.stderr))
        return done.stderr

    def sheet(self, out):
        """The file with the sheet, made of the output where that is laid out otherwise."""
        if not self.mapped:
            return out
        subprocess.run([sys.executable, source('cobol_sheet.py'), out, out + '.sheet'], check=True)
        return out + '.sheet'


def peers(args):
    """The programs that there are, ours first."""
    found = []
    if os.path.exists(args.sheet):
        command = lambda rows, out: ([args.sheet, source('day_sheet.desc'), rows + '.dat'], True)
        found.append(Peer('thin program', command))
    else:
        print('no thin program at %s: left out' % args.sheet)
    if shutil.which('cobc'):
        cobol = os.path.join(args.work, 'day_sheet_cobol')
        subprocess.run(['cobc', '-x', '-free', '-O2', source('day_sheet.cob'), '-o', cobol], check=True)
        found.append(Peer('GnuCOBOL', lambda rows, out: ([cobol, rows + '.dat', out], False), mapped=True))
    if shutil.which('awk'):
        command = lambda rows, out: (['awk', '-f', source('day_sheet.awk'), rows + '.txt'], True)
        found.append(Peer('awk', command))
    command = lambda rows, out: ([sys.executable, source('day_sheet.py'), rows + '.dat', out], False)
    return found + [Peer('Python', command)]


def rows_of(args, count):
    base = os.path.join(args.work, 'rows%d' % count)
    if not os.path.exists(base + '.txt'):
        seed = str(SEEDS.get(count, SEED))
        subprocess.run([sys.executable, source('make_rows.py'), str(count), base, seed], check=True)
    return base


def compare_sheets(args, found, count):
    """Every sheet is the same, byte for byte; ends the run where one is not."""
    rows = rows_of(args, count)
    outs = [os.path.join(args.work, '%d.out' % place) for place in range(len(found))]
    sheets = []
    for peer, out in zip(found, outs):
        peer.run(rows, out)
        sheets.append(peer.sheet(out))
    for peer, sheet in zip(found, sheets):
        if not filecmp.cmp(sheet, sheets[-1], shallow=False):
            sys.exit('%d rows: the sheet of %s is not that of %s: %s' % (count, peer.name, found[-1].name, sheet))
    size = os.path.getsize(sheets[-1])
    for file in set(outs + sheets):
        os.remove(file)
    return size


def processor():
    """Seconds of processor that the programs run so far have used."""
    used = resource.getrusage(resource.RUSAGE_CHILDREN)
    return used.ru_utime + used.ru_stime


def timed(args, peer, rows):
    """Seconds by the clock, seconds of processor and peak memory in KB of one run."""
    note, out = os.path.join(args.work, 'memory'), os.path.join(args.work, 'timed.out')
    began, used = time.perf_counter(), processor()
    # GNU time is small, so that the peak is the program's and not that of the process that starts it.
    peer.run(rows, out, ['/usr/bin/time', '-f', '%M', '-o', note])
    elapsed, used = time.perf_counter() - began, processor() - used
    os.remove(out)
    with open(note) as memory:
        return elapsed, used, int(memory.read())


def best(runs):
    """The least of each figure."""
    return [min(figures) for figures in zip(*runs)]


def instructions(args, peer, count):
    out = os.path.join(args.work, 'counted.out')
    watch = ['valgrind', '--tool=callgrind', '--callgrind-out-file=/dev/null']
    told = peer.run(rows_of(args, count), out, watch)
    os.remove(out)
    return int(re.search(r'Collected : (\d+)', told).group(1))


def instructions_a_row(args, peer):
    more, one = instructions(args, peer, COUNTED_ROWS), instructions(args, peer, 1)
    return (more - one) / (COUNTED_ROWS - 1)


def print_times(found, count, size, runs):
    print('\n%d rows, sheets of %d bytes, all the same; best of %d' % (count, size, len(runs[0])))
    print('  %-14s %14s %14s %12s %8s' % ('', 'rows/s, clock', 'rows/s, CPU', 'peak KB', 'ratio'))
    figures = [best(of_peer) for of_peer in runs]
    first = figures[0][1]
    for peer, (elapsed, used, memory) in zip(found, figures):
        speeds = count / elapsed, count / used
        print('  %-14s %14.0f %14.0f %12d %8.2f' % (peer.name, *speeds, memory, used / first))


def print_instructions(found, counts):
    print('\ninstructions a row, callgrind, %d rows less 1 row' % COUNTED_ROWS)
    for peer, count in zip(found, counts):
        print('  %-14s %14.0f %38.2f' % (peer.name, count, count / counts[0]))


def arguments():
    parser = argparse.ArgumentParser(description=__doc__)
    parser.add_argument('rows', nargs='*', type=int, default=[20000, 200000, 1000000], help='sizes')
    parser.add_argument('--times', type=int, default=5, help='runs of each program and size (5)')
    parser.add_argument('--sheet', default=os.path.join(ROOT, 'target/bin/sheet'), help='the thin program')
    parser.add_argument('--work', default=os.path.join(ROOT, 'target/bench'), help='folder for rows and sheets')
    parser.add_argument('--no-instructions', action='store_true', help='no callgrind')
    return parser.parse_args()


def main():
    args = arguments()
    os.makedirs(args.work, exist_ok=True)
    found = peers(args)
    for count in args.rows:
        rows = rows_of(args, count)
        size = compare_sheets(args, found, count)
        # All programs take turns, so that other work on the machine meets all of them.
        turns = [[timed(args, peer, rows) for peer in found] for _ in range(args.times)]
        print_times(found, count, size, list(zip(*turns)))
    if not args.no_instructions:
        print_instructions(found, [instructions_a_row(args, peer) for peer in found])
    print('\nratio: CPU time and instructions, in those of %s' % found[0].name)


main()
