#!/usr/bin/env python3
"""Make the T line of a sheet that has none.

    trailer.py SHEET             print the sheet with its T line
    trailer.py < SHEET           the same, from standard input
    trailer.py --check SHEET...  say of each sheet whether its T line is right

The groups L, P, R, Q, F and S stand in this order, and each line belongs to
the group of its letter. A T line at the end is replaced, so that a sheet can be
edited and passed through again. Only letters and line ends are looked at: what
a line says is for the assembler to judge.

Exit status: 0 done; 1 a line fits no group, or a checked T line is wrong; 2 bad
usage, or a file that cannot be read.
"""

import argparse
import sys

GROUPS = b"LPRQFS"


class Misplaced(Exception):
    """A line that fits no group where it stands."""


def lines_of(text):
    """The lines of a sheet but for its T line, without their line feeds."""
    lines = text.split(b"\n")
    if lines[-1] == b"":
        lines.pop()
    if lines and lines[-1].startswith(b"T"):
        lines.pop()
    return lines


def group_of(line, number):
    group = GROUPS.find(line[:1]) if line else -1
    if group < 0:
        raise Misplaced(f"line {number} does not begin with one of the letters L P R Q F S")
    if line.endswith(b"\r"):
        raise Misplaced(f"line {number} ends with CR and LF; a sheet has LF alone")
    return group


def with_trailer(text):
    """The sheet with a T line that fits it."""
    lines = lines_of(text)
    begins = [None] * len(GROUPS)
    last_group = 0
    offset = 0
    for number, line in enumerate(lines, start=1):
        group = group_of(line, number)
        if group < last_group:
            raise Misplaced(f"line {number} belongs above the {chr(GROUPS[last_group])} lines")
        if begins[group] is None:
            begins[group] = offset
        last_group = group
        offset += len(line) + 1
    if begins[0] is None:
        raise Misplaced("there is no L line")
    # An empty group begins where the next one does, the last one where the T line does.
    following = offset
    for group in reversed(range(len(GROUPS))):
        if begins[group] is None:
            begins[group] = following
        following = begins[group]
    numbers = " ".join(str(begin) for begin in begins[1:])
    return b"".join(line + b"\n" for line in lines) + f"T {numbers}\n".encode()


def read(path):
    if path is None:
        return sys.stdin.buffer.read()
    with open(path, "rb") as file:
        return file.read()


def check(path):
    text = read(path)
    try:
        right = with_trailer(text) == text
    except Misplaced as fault:
        print(f"{path}: {fault}")
        return False
    print(f"{path}: the T line is {'right' if right else 'wrong'}")
    return right


def main():
    parser = argparse.ArgumentParser(
        description=__doc__,
        formatter_class=argparse.RawDescriptionHelpFormatter,
        usage=argparse.SUPPRESS,
    )
    parser.add_argument("--check", action="store_true", help="look at T lines, print no sheet")
    parser.add_argument("sheets", metavar="SHEET", nargs="*")
    arguments = parser.parse_args()
    paths = arguments.sheets or [None]
    if not arguments.check and len(paths) > 1:
        parser.error("one sheet at a time, unless they are only checked")
    if arguments.check and paths == [None]:
        parser.error("--check needs the names of sheets")
    try:
        if arguments.check:
            # A list, so that every sheet is looked at.
            return 0 if all([check(path) for path in paths]) else 1
        sys.stdout.buffer.write(with_trailer(read(paths[0])))
        return 0
    except Misplaced as fault:
        print(f"trailer.py: {fault}", file=sys.stderr)
        return 1
    except OSError as fault:
        print(f"trailer.py: {fault}", file=sys.stderr)
        return 2


if __name__ == "__main__":
    sys.exit(main())
