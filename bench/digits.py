#!/usr/bin/env python3
"""digits.py: what it costs to print an amount, also through a picture, and the page and line of a record, by themselves.

Instructions: callgrind's count inside the call, its own callees included, by the calls. They do not depend on what else
the machine does. It needs valgrind, the static libraries and the programs of compare/:

    bin/static_libraries
    cargo build --offline --release --manifest-path compare/Cargo.toml"""
import argparse
import os
import re
import subprocess
import sys

ROOT = os.path.dirname(os.path.dirname(os.path.abspath(__file__)))
PRINTS = 10000

# What digit_cost prints (its words around the count of prints), the call that is counted, and what that is.
PICTURES = ['Z,ZZZ,ZZZ,ZZ9.99', '*,***,***,**9.99CR', 'ZZZ,ZZZ,ZZ9.99', '9,999,999,999.99-']
COUNTED = [
    ('number', [], 'bailcurlew_number', 'an amount of 12 digits, 2 of them decimals, in 16 bytes'),
    *[('picture', [p], 'bailcurlew_picture', 'an amount with a digit for each place of ' + p) for p in PICTURES],
    ('page', [], 'bailcurlew_page_line', 'page and line of a record'),
]


def instructions(program, what, more, call):
    watch = ['valgrind', '--tool=callgrind', '--toggle-collect=' + call, '--callgrind-out-file=/dev/null']
    done = subprocess.run([*watch, program, what, str(PRINTS), *more], stdout=subprocess.DEVNULL, stderr=subprocess.PIPE, text=True)
    if done.returncode:
        sys.exit('%s: exit code %d\n%s' % (program, done.returncode, done.stderr))
    return int(re.search(r'Collected : (\d+)', done.stderr).group(1))


def main():
    parser = argparse.ArgumentParser(description=__doc__, formatter_class=argparse.RawDescriptionHelpFormatter)
    parser.add_argument('--programs', default=os.path.join(ROOT, 'compare/target/release'), help='folder of digit_cost')
    program = os.path.join(parser.parse_args().programs, 'digit_cost')
    if not os.path.exists(program):
        sys.exit('no program at %s: build compare/ first' % program)
    for what, more, call, name in COUNTED:
        print('%-60s %8.1f' % (name, instructions(program, what, more, call) / PRINTS), flush=True)


if __name__ == '__main__':
    main()
