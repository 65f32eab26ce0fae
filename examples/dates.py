"""Prints the dates of a text, and the text with each written in another way: dates.py TEXT [PATTERN]."""

import sys

import regress

DATE = r'(?<year>\d{4})-(?<month>\d\d)-(?<day>\d\d)'

try:
    pattern = regress.compile(sys.argv[2] if len(sys.argv) > 2 else DATE, 'u')
    for found in pattern.finditer(sys.argv[1]):
        print(found.expand('$<day>.$<month>.$<year>'), 'at', found.start())
    print(pattern.sub('$<day>.$<month>.$<year>', sys.argv[1]))
except regress.error as error:
    sys.exit('%s (%s)' % (error, error.kind))
