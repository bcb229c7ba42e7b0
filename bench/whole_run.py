#!/usr/bin/env python3
"""whole_run.py: document 01's whole run by GnuCOBOL's report writer, against examples/whole_run.sheet."""
import argparse
import itertools
import os
import shutil
import subprocess
import sys

HERE = os.path.dirname(os.path.abspath(__file__))
ROOT = os.path.dirname(HERE)

W = 12


def source(name):
    return os.path.join(HERE, name)


def cobol_sheet(work, rows):
    """The file with GnuCOBOL's sheet of the rows, as printed records."""
    program, out = os.path.join(work, 'whole_run_cobol'), os.path.join(work, 'whole_run.out')
    subprocess.run(['cobc', '-x', '-free', '-O2', source('whole_run.cob'), '-o', program], check=True)
    subprocess.run([program, rows, out], check=True)
    subprocess.run([sys.executable, source('cobol_sheet.py'), out, out + '.sheet', str(W)], check=True)
    return out + '.sheet'


def records(sheet):
    """The sheet's records, each with its last byte 10."""
    with open(sheet, 'rb') as lines:
        return list(lines)


def first_difference(ours, theirs):
    """Number, counted from 1, and both records of the first difference; None for a record that is not there."""
    for number, (our, their) in enumerate(itertools.zip_longest(ours, theirs), 1):
        if our != their:
            return number, our, their
    return None


def compare(ours, theirs):
    """Tells whether the records are the same; gives the exit code."""
    difference = first_difference(ours, theirs)
    if difference is None:
        print('the same: %d records' % len(ours))
        return 0
    number, our, their = difference
    print('record %d differs\n  sheet    %r\n  GnuCOBOL %r' % (number, our, their))
    return 1


def arguments():
    parser = argparse.ArgumentParser(description=__doc__)
    parser.add_argument('--examples', default=os.path.join(ROOT, 'examples'),
                        help='folder with whole_run.rows and whole_run.sheet')
    parser.add_argument('--work', default=os.path.join(ROOT, 'target/bench'), help="folder for GnuCOBOL's files")
    return parser.parse_args()


def main():
    args = arguments()
    if not shutil.which('cobc'):
        print('cobc is not installed: skipped')
        return 0
    os.makedirs(args.work, exist_ok=True)
    printed = cobol_sheet(args.work, os.path.join(args.examples, 'whole_run.rows'))
    return compare(records(os.path.join(args.examples, 'whole_run.sheet')), records(printed))


sys.exit(main())
