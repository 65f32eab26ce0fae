#!/bin/sh
# Prints each match of a pattern in a file on a line of its own, also if it has several lines: only.sh PATTERN FILE. Empty
# matches are left out. It needs regex on the path, and exits with its status: 1 if there is no match, 2 on an error.
exec regex match -M -o -e "$1" -- "$2"
