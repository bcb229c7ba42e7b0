#!/usr/bin/env python3
"""day_sheet.py ROWS.dat OUT: the benchmark's day sheet by Python, one plain loop over records back to back."""
import sys

R, FD, LOW, W = 63, 4, 57, 72
TAG = ('DAY TOTAL', 'AGENT TOTAL', 'CUSTOMER TOTAL', 'MODEM TOTAL')
TITLES = 'AGENT      CUSTOMER   MODEM                     AMOUNT       COMMISSION'.ljust(W)


def money(v):
    s = '-' if v < 0 else ''
    v = abs(v)
    return ('%s%d.%02d' % (s, v // 100, v % 100)).rjust(16)


def main():
    data = open(sys.argv[1], 'rb').read().decode('ascii')
    out = open(sys.argv[2], 'w', buffering=1 << 20)
    wr = out.write
    page, line, seen = 1, 0, False
    sums = [[0, 0], [0, 0], [0, 0], [0, 0]]

    def heading():
        title = ('DAY SHEET'.ljust(59) + 'PAGE ' + '%6d' % page).ljust(W)
        wr('%06d001%s\n%06d002%s\n' % (page, title, page, TITLES))

    def put(text):
        nonlocal page, line, seen
        if not seen:
            line = FD
            seen = True
        elif line + 1 <= LOW:
            line += 1
        else:
            page += 1
            heading()
            line = FD
        wr('%06d%03d%s\n' % (page, line, text.ljust(W)))

    def foot(level):
        a, c = sums[level]
        if level:
            s = sums[level - 1]
            s[0] += a
            s[1] += c
        put(' ' * 11 + TAG[level].ljust(27) + money(a) + ' ' + money(c))
        if level:
            sums[level] = [0, 0]

    kept = None
    for i in range(0, len(data), R):
        rec = data[i:i + R]
        key = (rec[:10], rec[10:20], rec[20:35])
        if kept is None:
            heading()
            kept = key
        elif key != kept:
            b = 1 if key[0] != kept[0] else 2 if key[1] != kept[1] else 3
            for level in range(3, b - 1, -1):
                foot(level)
            kept = key
        a = int(rec[35:49])
        c = int(rec[49:63])
        s = sums[3]
        s[0] += a
        s[1] += c
        put('%s %s %s %s %s' % (key[0], key[1], key[2], money(a), money(c)))
    if kept is not None:
        for level in (3, 2, 1, 0):
            foot(level)
    out.close()


main()
