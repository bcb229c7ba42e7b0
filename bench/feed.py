#!/usr/bin/env python3
"""feed.py: what a row of the day sheet costs by the feeder, in chunks of several sizes, and by one GENERATE a row.

Instructions a row: callgrind's count for so many rows less its count for one row, by the rows between. They do not depend
on what else the machine does. It needs valgrind and the programs of compare/:

    cargo build --offline --release --manifest-path compare/Cargo.toml"""
import argparse
import os
import re
import subprocess
import sys

HERE = os.path.dirname(os.path.abspath(__file__))
ROOT = os.path.dirname(HERE)
DESCRIPTION = os.path.join(HERE, 'day_sheet.desc')

# As in run.py, so that the figures can be set beside that one's.
SEED = 20240602

# Bytes of a record.
RECORD = 63

# A chunk of few bytes costs a whole call, so that many rows of them take long under callgrind.
ROWS, ROWS_OF_FEW = 20000, 2000
FEW = 16


def rows_of(args, count):
    base = os.path.join(args.work, 'fed_rows%d' % count)
    if not os.path.exists(base + '.dat'):
        subprocess.run([sys.executable, os.path.join(HERE, 'make_rows.py'), str(count), base, str(SEED)], check=True)
    return base + '.dat'


def instructions(args, program, count, word):
    """The instructions of a program on so many rows, and the bytes of sheet that it tells."""
    command = [os.path.join(args.programs, program), DESCRIPTION, rows_of(args, count), word]
    watch = ['valgrind', '--tool=callgrind', '--callgrind-out-file=/dev/null']
    done = subprocess.run([*watch, *command], stdout=subprocess.PIPE, stderr=subprocess.PIPE, text=True)
    if done.returncode:
        sys.exit('%s: exit code %d\n%s' % (' '.join(command), done.returncode, done.stderr))
    return int(re.search(r'Collected : (\d+)', done.stderr).group(1)), int(done.stdout)


def line(args, name, program, count, word):
    more, sheet = instructions(args, program, count, word)
    one, _ = instructions(args, program, 1, word)
    a_row = (more - one) / (count - 1)
    print('%-26s %10d %16d %12d %16.0f' % (name, count, more, one, a_row), flush=True)
    return sheet


def arguments():
    parser = argparse.ArgumentParser(description=__doc__, formatter_class=argparse.RawDescriptionHelpFormatter)
    parser.add_argument('sizes', nargs='*', type=int, default=[4096, RECORD, 1],
                        help='bytes of a chunk, 1 to 4096 (4096, %d, which is a record, and 1)' % RECORD)
    parser.add_argument('--rows', type=int, help='rows to feed (%d, for chunks below %d bytes %d)' % (ROWS, FEW, ROWS_OF_FEW))
    parser.add_argument('--programs', default=os.path.join(ROOT, 'compare/target/release'),
                        help='folder of feed_cost and row_cost')
    parser.add_argument('--work', default=os.path.join(ROOT, 'target/bench'), help='folder for the rows')
    args = parser.parse_args()
    if args.rows is not None and args.rows < 2:
        parser.error('--rows is at least 2')
    return args


def main():
    args = arguments()
    os.makedirs(args.work, exist_ok=True)
    print('%-26s %10s %16s %12s %16s' % ('', 'rows', 'all', 'one row', 'a row'))
    sheets = {}
    for size in args.sizes:
        count = args.rows or (ROWS_OF_FEW if size < FEW else ROWS)
        sheet = line(args, 'feeder, chunks of %d' % size, 'feed_cost', count, str(size))
        sheets.setdefault(count, set()).add(sheet)
    count = args.rows or ROWS
    sheets.setdefault(count, set()).add(line(args, 'GENERATE, one a row', 'row_cost', count, '1'))
    for count, lengths in sheets.items():
        if len(lengths) > 1:
            sys.exit('%d rows: sheets of different lengths: %s' % (count, sorted(lengths)))


main()
