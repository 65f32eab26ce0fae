"""Finds dates, and writes them in another way: first.py."""

import regress

date = regress.compile(r'(?<year>\d{4})-(?<month>\d\d)-(?<day>\d\d)', 'u')
text = 'from 2024-05-17 to 2025-01-02'
for found in date.finditer(text):
    print(found.group())
print(date.sub('$<day>.$<month>.$<year>', text))
