"""compare.py TABLES FIRST SECOND: where two recordings of one test differ. It ends with 0 if they don't, and else with 40.

TABLES is the folder in which the recorder left its tables. Recordings are compared line by line.
"""
import itertools
import pathlib
import sys

from operation_tables import OperationTable


def difference(tables, first, second):
    """What differs in two lines, or None where their values are equal."""
    (*heads, first_body), (*other_heads, second_body) = (line.rstrip("\n").split("\t") for line in (first, second))
    if heads != other_heads:
        return " and ".join(" ".join(it) or "nothing" for it in (heads, other_heads))
    service, operation, side, _, outcome = heads
    if outcome != "recorded":
        return f"{service} {operation} {side} has other bytes, which were refused"
    table = OperationTable(pathlib.Path(tables, service, f"{operation}.{side}").read_bytes())
    path = table.compare(first_body.encode(), second_body.encode())
    return path and f"{service} {operation} {side} differs at {path}"


def main():
    tables, *recordings = sys.argv[1:]
    first, second = (open(it, encoding="utf-8", newline="\n") for it in recordings)
    status = 0
    for number, lines in enumerate(itertools.zip_longest(first, second, fillvalue=""), 1):
        different = lines[0] != lines[1] and difference(tables, *lines)
        if different:
            print(f"line {number}: {different}")
            status = 40
    return status


if __name__ == "__main__":
    sys.exit(main())
