#!/usr/bin/env python3
"""An independent reading and writing of zerotree streams, in plain Python.

It is written step by step from the rules of the format and shares nothing
with the Rattle crates, so that the two can be held against each other
(see compare.py). Run as a script it tests itself on known examples.

A table of side 2^k is a list of its 4^k numbers in scan order (Morton order).
A stream is a string of '0' and '1'.
"""

import functools
import random

LARGEST = 32767
LONGEST_TEXT = 65536
HEADER = 7

ISOLATED_ZERO, ZEROTREE_ROOT, POSITIVE, NEGATIVE = '00', '01', '10', '11'


# --- places -----------------------------------------------------------------

def row_and_column(place):
    """The odd-numbered bits of a place are its row, the even-numbered ones its column."""
    row = column = 0
    for i in range(6):
        column |= (place >> (2 * i) & 1) << i
        row |= (place >> (2 * i + 1) & 1) << i
    return row, column


@functools.lru_cache(maxsize=None)
def places_by_rows(k):
    """For each row of the table, the places along it from left to right."""
    rows = [[None] * 2**k for _ in range(2**k)]
    for place in range(4**k):
        row, column = row_and_column(place)
        rows[row][column] = place
    return rows


def from_rows(rows):
    """The list in scan order of a table written row by row."""
    where = [row_and_column(place) for place in range(len(rows) ** 2)]
    return [rows[row][column] for row, column in where]


def to_rows(k, table):
    """The table, given in scan order, row by row."""
    return [[table[place] for place in row] for row in places_by_rows(k)]


def children(k, place):
    if place == 0:
        return [1, 2, 3]
    return [4 * place + i for i in range(4)] if 4 * place < 4**k else []


@functools.lru_cache(maxsize=None)
def tree(k):
    """Two lists over the places: has it children, and its ancestors, the nearest first."""
    parents = [None] * 4**k
    branching = [False] * 4**k
    for place in range(4**k):
        for child in children(k, place):
            parents[child] = place
            branching[place] = True
    ancestors = [()]
    for place in range(1, 4**k):
        parent = parents[place]
        ancestors.append((parent,) + ancestors[parent])
    return branching, ancestors


def cover_descendants(covered, place):
    """Set the flag of every descendant: each generation is one run of places."""
    if place == 0:
        covered[1:] = b'\1' * (len(covered) - 1)
        return
    first, end = 4 * place, 4 * place + 4
    while first < len(covered):
        covered[first:end] = b'\1' * (end - first)
        first, end = 4 * first, 4 * end


# --- what is known of the found places ----------------------------------------

class Cells:
    """Sign, low end and width of every found place; a place not found has width 0."""

    def __init__(self, k):
        self.sign = [0] * 4**k
        self.low = [0] * 4**k
        self.width = [0] * 4**k
        self.order = []  # the found places, in the order of finding

    def find(self, place, sign, threshold):
        self.sign[place] = sign
        self.low[place] = self.width[place] = threshold
        self.order.append(place)

    def halve(self, place, upper):
        self.width[place] //= 2
        if upper:
            self.low[place] += self.width[place]

    def numbers(self):
        """The heard table: the middle of each cell, its one number if it has but one."""
        return [sign * (low + width // 2)
                for sign, low, width in zip(self.sign, self.low, self.width)]


# --- writing ------------------------------------------------------------------

def top_of(table):
    """The largest power of two not above the largest magnitude; 0 for a table of zeros."""
    largest = max(abs(number) for number in table)
    if largest == 0:
        return 0
    top = 1
    while 2 * top <= largest:
        top *= 2
    return top


def write(k, floor, table):
    """The full stream of a table at a floor, and the cells its writer ends with."""
    assert 1 <= k <= 6 and len(table) == 4**k
    assert floor in [2**i for i in range(15)]
    assert all(-LARGEST <= number <= LARGEST for number in table)
    magnitude = [abs(number) for number in table]
    branching, ancestors = tree(k)
    cells = Cells(k)
    top = top_of(table)
    if floor > top:
        return format(k, '03b') + '0000', cells
    out = [format(k, '03b'), format(top.bit_length(), '04b')]

    threshold = top
    while threshold >= floor:
        # Places that some descendant, not found before this pass, keeps from being a root.
        kept_open = bytearray(4**k)
        for place in range(4**k):
            if cells.width[place] == 0 and magnitude[place] >= threshold:
                for ancestor in ancestors[place]:
                    kept_open[ancestor] = 1

        # Dominant pass. A place below a root stays unlabelled even where the
        # places between the two were found before.
        covered = bytearray(4**k)
        for place in range(4**k):
            if cells.width[place] or covered[place]:
                continue
            if magnitude[place] >= threshold:
                negative = table[place] < 0
                out.append(NEGATIVE if negative else POSITIVE)
                cells.find(place, -1 if negative else 1, threshold)
            elif branching[place] and not kept_open[place]:
                out.append(ZEROTREE_ROOT)
                cover_descendants(covered, place)
            else:
                out.append(ISOLATED_ZERO)

        # Subordinate pass: one bit for every place found so far.
        if threshold >= 2:
            for place in cells.order:
                upper = magnitude[place] >= cells.low[place] + cells.width[place] // 2
                out.append('1' if upper else '0')
                cells.halve(place, upper)
        threshold //= 2
    return ''.join(out), cells


def encode(k, floor, table):
    """The full stream of a table at a floor."""
    return write(k, floor, table)[0]


def heard(k, floor, table):
    """The table that a reader of the full stream should hear, told by the writer's own cells."""
    return write(k, floor, table)[1].numbers()


# --- reading ------------------------------------------------------------------

def read(k, bits, whole):
    """The heard table in scan order, or ('refused', number, bits taken).

    With whole unset the bits may stop anywhere after the header, and half a
    label at the end goes unused; with whole set they must end with the passes
    of some threshold.
    """
    count = len(bits)
    if count < HEADER:
        return 'refused', 8, count
    if int(bits[0:3], 2) != k:
        return 'refused', 9, HEADER
    level = int(bits[3:7], 2)
    taken = HEADER

    branching, ancestors = tree(k)
    cells = Cells(k)
    threshold = 2**level // 2
    while threshold >= 1:
        if taken == count and cells.order:
            return cells.numbers()  # the end falls between two thresholds

        # Dominant pass.
        covered = bytearray(4**k)
        open_zeros = []  # isolated zeros with children
        fresh = []       # places found in this pass
        for place in range(4**k):
            if cells.width[place] or covered[place]:
                continue
            if taken + 2 > count:
                return ('refused', 14, count) if whole else cells.numbers()
            label = bits[taken:taken + 2]
            taken += 2
            if label == POSITIVE:
                cells.find(place, 1, threshold)
                fresh.append(place)
            elif label == NEGATIVE:
                cells.find(place, -1, threshold)
                fresh.append(place)
            elif label == ZEROTREE_ROOT:
                if not branching[place]:
                    return 'refused', 10, taken
                cover_descendants(covered, place)
            elif branching[place]:
                open_zeros.append(place)

        # What the labels of a finished dominant pass owe each other.
        if not cells.order:
            return 'refused', 11, taken
        justified = bytearray(4**k)
        for place in fresh:
            for ancestor in ancestors[place]:
                justified[ancestor] = 1
        for place in open_zeros:
            if not justified[place]:
                return 'refused', 12, taken

        # Subordinate pass.
        if threshold >= 2:
            for place in cells.order:
                if taken == count:
                    return ('refused', 14, count) if whole else cells.numbers()
                cells.halve(place, bits[taken] == '1')
                taken += 1
        threshold //= 2

    if taken < count:
        return 'refused', 13, taken
    return cells.numbers()


# --- the previewing program -----------------------------------------------------

def program(text):
    """What the previewing program prints for the bytes of a text of digits."""
    if len(text) > LONGEST_TEXT:  # the line feed counts as well
        return 'refused 21 at 0\n'
    if text.endswith(b'\n'):
        text = text[:-1]
    if text.translate(None, delete=b'01'):  # some other byte is left
        return 'refused 21 at 0\n'
    bits = text.decode('ascii')
    if len(bits) < HEADER:
        return f'refused 8 at {len(bits)}\n'
    k = int(bits[0:3], 2)
    if not 1 <= k <= 6:
        return 'refused 1 at 0\n'
    answer = read(k, bits, False)
    if isinstance(answer, tuple):
        _, number, place = answer
        return f'refused {number} at {place}\n'
    return ''.join(' '.join(map(str, row)) + '\n' for row in to_rows(k, answer))


# --- known examples -------------------------------------------------------------

FOUR = [[26, 6, 13, 10],
        [-7, 7, 6, 4],
        [4, -4, 4, -3],
        [2, -2, -2, 0]]

EIGHT = [[63, -34, 49, 10, 7, 13, -12, 7],
         [-31, 23, 14, -13, 3, 4, 6, -1],
         [15, 14, 3, -12, 5, -7, 3, 9],
         [-9, -7, -14, 8, 4, -2, 3, 2],
         [-5, 9, -1, 47, 4, 6, -2, 2],
         [3, 0, -3, 2, 3, -2, 0, 4],
         [2, -3, 6, -4, 3, 6, 3, 6],
         [5, 11, 5, 6, 0, 3, -4, 4]]


def joined(spaced):
    return spaced.replace(' ', '')


def sparse(k, numbers):
    """The table with the given numbers at the given places and zeros elsewhere."""
    return [numbers.get(place, 0) for place in range(4**k)]


def same(got, wanted):
    if got != wanted:
        raise AssertionError(f'got {got!r}, not {wanted!r}')


def test_places():
    same(row_and_column(6), (1, 2))
    same(to_rows(1, [0, 1, 2, 3]), [[0, 1], [2, 3]])
    same(to_rows(2, from_rows(FOUR)), FOUR)


def test_four():
    four = from_rows(FOUR)
    at_16, at_8, at_4 = (encode(2, floor, four) for floor in (16, 8, 4))
    same(at_16, joined('0100101 10010101 1'))
    same(read(2, at_16, True), sparse(2, {0: 28}))
    same(len(at_8), 33)
    same(read(2, at_8, True), sparse(2, {0: 26, 4: 14, 5: 10}))
    same(len(at_4), 70)
    same(to_rows(2, read(2, at_4, True)),
         [[27, 7, 13, 11], [-7, 7, 7, 5], [5, -5, 5, 0], [0, 0, 0, 0]])
    same(encode(2, 32, four), '0100000')
    same(read(2, '0100000', True), sparse(2, {}))
    same(read(2, at_16[:15], False), sparse(2, {0: 24}))
    same(read(2, at_16[:15], True), ('refused', 14, 15))
    same(read(2, at_16[:8], False), sparse(2, {}))
    # Saved and loaded in turn, the number at place 0 wanders about its cell.
    again = four
    for floor, wanted in ((16, 28), (4, 29), (16, 28)):
        again = read(2, encode(2, floor, again), True)
        same(again[0], wanted)


def test_small():
    same(encode(1, 1, [1, 1, 1, 1]), joined('0010001 10101010'))
    same(encode(1, 2, [1, 1, 1, 1]), '0010000')
    largest = joined('0011111 10000000 1')
    same(encode(1, 16384, [LARGEST, 0, 0, 0]), largest)
    same(read(1, largest, True), [28672, 0, 0, 0])
    # Place 1 is found at 2; at 1, place 0 is a root, and places 4 to 7 below
    # place 1 are covered by it although place 1 itself was found before.
    same(encode(2, 1, sparse(2, {1: 2})),
         joined('0100010 00 10 01 01 00 00 00 00 0 01'))


def test_eight():
    bits = encode(3, 32, from_rows(EIGHT))
    same(len(bits), 51)
    same(bits[:7], '0110110')
    same(bits[47:], '1010')


def test_refusals():
    for spaced, number, place in (
            ('0010001 1001', 10, 11),
            ('0010001 01', 11, 9),
            ('0010000 1', 13, 7),
            ('0100001 10 00 01 01 00000000', 12, 23)):
        bits = joined(spaced)
        for whole in (False, True):
            same(read(int(bits[:3], 2), bits, whole), ('refused', number, place))
    same(read(2, '010', False), ('refused', 8, 3))
    same(read(2, '0010000', False), ('refused', 9, 7))
    same(read(1, '0010001', True), ('refused', 14, 7))
    same(read(1, '0010001', False), [0, 0, 0, 0])
    # Every place is found at 2, so the pass at 1 has no label: the streams at
    # 2 and 1 are the same, and one bit more is too many.
    bits = encode(1, 1, [2, 3, -2, -3])
    same(bits, encode(1, 2, [2, 3, -2, -3]))
    same(read(1, bits, True), [2, 3, -2, -3])
    same(read(1, bits + '0', False), ('refused', 13, len(bits)))


def test_program():
    same(program(b'0100101100101011'), '28 0 0 0\n' + 3 * '0 0 0 0\n')
    same(program(b'0100101100101011\n'), '28 0 0 0\n' + 3 * '0 0 0 0\n')
    same(program(b''), 'refused 8 at 0\n')
    same(program(b'\n'), 'refused 8 at 0\n')
    same(program(b'111000\n'), 'refused 8 at 6\n')
    same(program(b'1110000'), 'refused 1 at 0\n')
    same(program(b'0000000'), 'refused 1 at 0\n')
    for text in (b'0010000\n\n', b'0010000\r\n', b'\n0010000', b'00 0', b'2', b'\x00',
                 b'0' * 65537, b'0' * 65536 + b'\n'):
        same(program(text), 'refused 21 at 0\n')
    same(program(b'0' * 65536), 'refused 1 at 0\n')
    same(program(b'00100011001'), 'refused 10 at 11\n')


def test_round_trips():
    """Random tables: the reader hears what the closed form of the heard number says."""
    rng = random.Random(1)
    for _ in range(600):
        k = rng.choice((1, 1, 2, 2, 2, 3, 3, 4))
        floor = 2 ** rng.randrange(15)
        reach = rng.choice((2 * floor, 8 * floor, 65536)) - 1
        reach = min(reach, LARGEST)
        density = rng.choice((0.1, 0.5, 1))
        table = [rng.randint(-reach, reach) if rng.random() < density else 0
                 for _ in range(4**k)]
        bits = encode(k, floor, table)
        width = max(1, floor // 2)
        expected = []
        for number in table:
            middle = abs(number) // width * width + width // 2
            expected.append(0 if abs(number) < floor else middle if number > 0 else -middle)
        same(read(k, bits, True), expected)
        same(heard(k, floor, table), expected)
        same(encode(k, floor, expected), bits)
        if any(expected):
            same(encode(k, 1, expected)[:len(bits)], bits)


def main():
    tests = [value for name, value in globals().items() if name.startswith('test_')]
    for test in tests:
        test()
    print(f'reference.py: {len(tests)} tests passed')


if __name__ == '__main__':
    main()
