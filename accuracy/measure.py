"""measure.py ANSWERS DOCS: measures the grid with the program ANSWERS, prints the tables, and writes the pictures and
the tables of SUPPORT.md to the folder DOCS. If drawn points do not hold the table of ranges, nothing is written."""

import sys
import time
from pathlib import Path

import check
import drawn
import errors
import grid
import limits
import orders
import picture
import ranges
import report

BEGIN, END = "<!-- written by accuracy/run: {} -->", "<!-- end -->"
PICTURES = {"D": "accuracy-d.svg", "V": "accuracy-v.svg", "E": "accuracy-expansion.svg"}


def put(path, name, table):
    """Replaces what stands in the file between the lines of this table."""
    text = path.read_text(encoding="utf-8")
    before, found, rest = text.partition(BEGIN.format(name) + "\n")
    _, ended, after = rest.partition(END + "\n")
    if not (found and ended):
        raise ValueError(f"{path} has no place for the table '{name}'")
    path.write_text(before + found + table + "\n" + ended + after, encoding="utf-8")


def of_parts(points, *parts):
    return [point for point in points if point.part in parts]


def tables_of(program, points):
    """{name: table} of the tables that SUPPORT.md has."""
    fine = of_parts(points, grid.FINE, grid.FINE_DRAWN)
    return {
        "ranges": ranges.table(points) + "\n\n" + drawn.check(program, points),
        "branches": report.by_branch("table calls, sizes of v to 60.5, of x to 20.1", fine),
        "beside": orders.beside_table(points),
        "powers of two": orders.powers_table(points),
        "other calls": report.other_rows(points, errors.series_points(program), ranges),
        "limits": limits.table(program),
    }


def main(program, docs):
    started = time.time()
    print(f"reference: {check.check()} points agree with mpmath to {check.DIGITS} digits")
    points = errors.points_of(program, grid.tasks())
    print(f"grid: {len(points)} answers, {time.time() - started:.0f} s", flush=True)
    tables = tables_of(program, points)
    wide = of_parts(points, grid.WIDE, grid.WIDE_DRAWN)
    print(*tables.values(), report.by_branch("table calls, sizes of v to 300.3, of x to 58.8", wide), sep="\n\n")
    largest = report.bits_of_largest(of_parts(points, grid.FINE, grid.FINE_DRAWN))
    print("\nthe largest errors of the branches to 60.5 and 20.1, as requests:", largest, sep="\n")
    for name, table in tables.items():
        put(docs / "SUPPORT.md", name, table)
    for call, name in PICTURES.items():
        (docs / name).write_text(picture.picture(points, call), encoding="utf-8")
    print(f"\n{time.time() - started:.0f} s; written: {', '.join(PICTURES.values())} and the tables of SUPPORT.md")


if __name__ == "__main__":
    if len(sys.argv) != 3:
        sys.exit(__doc__)
    try:
        main(sys.argv[1], Path(sys.argv[2]))
    except drawn.NotHeld as fault:
        sys.exit(f"accuracy: {fault}")
