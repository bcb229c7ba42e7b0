#!/usr/bin/env python3
"""cobol_sheet.py OUT SHEET [W]: what day_sheet.cob or whole_run.cob prints, as printed records of document 01.

The page is PAGE-COUNTER's. The line is the distance from the page's first line in the file: LINE-COUNTER is one short
while TERMINATE prints. W is 72 where it is left out.
"""
import sys


def main(printed, sheet, width):
    page, first, top = 0, 0, 0
    for place, text in enumerate(printed):
        text = text.rstrip('\n')
        if not text.strip():
            continue
        if int(text[:6]) != page:
            page, first, top = int(text[:6]), place, int(text[6:9])
        sheet.write('%06d%03d%s\n' % (page, top + place - first, text[9:].ljust(width)))


with open(sys.argv[1]) as printed, open(sys.argv[2], 'w') as sheet:
    main(printed, sheet, int(sys.argv[3]) if len(sys.argv) > 3 else 72)
