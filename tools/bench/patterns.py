"""The patterns to measure with, from a file with one on each line: a literal of JavaScript, such as /a+/i, or flags, a
tab, and code points in hexadecimal, separated by spaces. Lines that begin with # are comments."""
from pathlib import Path

FILE = Path(__file__).resolve().parent / "patterns.txt"


def read(file=FILE):
    """Returns the patterns, each with its flags."""
    return [of_line(line) for line in Path(file).read_text(encoding="utf-8").splitlines() if not line.startswith("#")]


def of_line(line):
    if line.startswith("/"):
        pattern, _, flags = line[1:].rpartition("/")
        return pattern, flags
    flags, points, *_ = line.split("\t")
    return "".join(chr(int(point, 16)) for point in points.split()), flags
