# count.py FILE PATTERN all|first|again|compile: prints the number of matches, and the CPU seconds and the seconds of
# the search; with `again` of the first match, with `compile` of compiling and of the first match together, each the
# mean of many runs.
import functools
import re
import sys
import time
import warnings

# How long it is run again and again, in seconds.
SPENT = 0.05
# How often a search is repeated between two looks at the clock.
REPEATED = 100
warnings.simplefilter("ignore")
file, pattern, mode = sys.argv[1:]
text = open(file, encoding="utf-8", newline="").read()
try:
    regex = re.compile(pattern)
except re.error:
    sys.exit(1)


def compiled_anew():
    re.purge()
    return re.search(pattern, text)


def repeat(times, search):
    """Runs a search again and again, `times` times between two looks at the clock, and prints the number of matches and
    the mean time."""
    before, used, runs = time.process_time(), 0, 0
    while used < SPENT:
        for _ in range(times):
            found = search()
        runs += times
        used = time.process_time() - before
    print(int(found is not None), used / runs, used / runs)
    sys.exit()


if mode == "again":
    repeat(REPEATED, functools.partial(regex.search, text))
if mode == "compile":
    repeat(1, compiled_anew)
before, started = time.process_time(), time.perf_counter()
count = 0
for _ in regex.finditer(text):
    count += 1
    if mode == "first":
        break
print(count, time.process_time() - before, time.perf_counter() - started)
