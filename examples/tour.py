"""The program of docs/start-python.md: a first match, groups, replacements, patterns of users, steps and threads."""

import regress
from concurrent.futures import ThreadPoolExecutor

TEXT = 'from 2024-05-17 to 2025-01-02'

# A first match
date = regress.compile(r'(?<year>\d{4})-(?<month>\d\d)-(?<day>\d\d)')
found = date.search(TEXT)
print(found.group(), 'at', found.span())
print(date.findall('no date'), regress.search('TO', TEXT, regress.I).start())

# Groups
for found in date.finditer(TEXT):
    print(found['day'], found[2], found['year'], found.groups())

# Replacing, by a template and by a function
print(date.sub('$<day>.$<month>.$<year>', TEXT))
print(date.sub(lambda found: str(int(found['year']) + 1), TEXT, count=1))
print(regress.split(r',\s*', 'a, b,c'))


# Patterns of users
def search_for_user(pattern, text):
    try:
        found = regress.compile(pattern, 'u', nodes=10_000, instructions=10_000, steps=1_000_000).search(text)
    except regress.error as error:
        # No answer: reject the text, whether a match would allow it or forbid it.
        return '%s: %s' % (error.kind, error)
    return 'found' if found else 'not found'


print(search_for_user(r'\d+', TEXT))
print(search_for_user('a)', TEXT))
print(search_for_user('(?:(?:ab){9999999999}){9999999999}', TEXT))
print(search_for_user('(a|a)*b', 'a' * 100))

# A search that takes too many steps
print(search_for_user(r'(a|a)*\1b', 'a' * 100))
print(regress.compile(r'(a|a)*\1b').nonlinear, regress.compile('(a|a)*b').is_linear)

# Threads share a pattern
with ThreadPoolExecutor(8) as pool:
    counts = pool.map(lambda n: len(date.findall(TEXT * n)), range(8))
    print(list(counts))
