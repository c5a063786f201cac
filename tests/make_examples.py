#!/usr/bin/env python3
"""Make the streams in examples/, or with --check see that they are as made here.

four_at_4.digits    the 4 x 4 table of the self-test in reference.py, at floor 4
surface_64.digits   a smooth surface of 64 x 64 heights after six steps of a
                    two-dimensional Haar transform in whole numbers, at floor 16

Whole-number arithmetic only, so every machine makes the same files.
"""

import pathlib
import sys

import reference

FOLDER = pathlib.Path(__file__).resolve().parent.parent / 'examples'
SURFACE_FLOOR = 16


def height(row, column):
    """A round hill, a lower and broader one, and a slope that rises to the right."""
    def hill(top, breadth, at_row, at_column):
        distance = (row - at_row) ** 2 + (column - at_column) ** 2
        return top * breadth // (breadth + distance)
    return hill(420, 160, 22, 40) + hill(200, 500, 48, 14) + 2 * column


def haar(rows):
    """Averages to the upper left, differences to the other quarters, and the averages again."""
    table = [list(row) for row in rows]
    side = len(table)
    while side > 1:
        half = side // 2
        step = [row[:side] for row in table[:side]]
        for row in range(half):
            for column in range(half):
                a, b = step[2 * row][2 * column:2 * column + 2]
                c, d = step[2 * row + 1][2 * column:2 * column + 2]
                table[row][column] = (a + b + c + d) // 2
                table[row][column + half] = (a - b + c - d) // 2
                table[row + half][column] = (a + b - c - d) // 2
                table[row + half][column + half] = (a - b - c + d) // 2
        side = half
    return table


def made():
    """The name and the text of each file."""
    four = reference.encode(2, 4, reference.from_rows(reference.FOUR))
    surface = haar([[height(row, column) for column in range(64)] for row in range(64)])
    surface = reference.encode(6, SURFACE_FLOOR, reference.from_rows(surface))
    for name, bits in (('four_at_4.digits', four), ('surface_64.digits', surface)):
        text = bits + '\n'
        assert len(text) <= reference.LONGEST_TEXT
        yield name, text


def main():
    differing = 0
    for name, text in made():
        path = FOLDER / name
        if '--check' in sys.argv[1:]:
            same = path.exists() and path.read_bytes() == text.encode()
            differing += not same
            print(f'{name}: {"as made" if same else "DIFFERS"}')
        else:
            FOLDER.mkdir(exist_ok=True)
            path.write_bytes(text.encode())
            print(f'{name}: {len(text) - 1} digits')
    return 1 if differing else 0


if __name__ == '__main__':
    sys.exit(main())
