#!/usr/bin/env python3
"""Hold the previewing program against the plain Python reading of the format.

Many texts of digits are made from a fixed seed: streams of random tables of
all sides at all floors, whole, cut, with flipped, appended or exchanged bits,
random walks over the passes, random bits, and texts that are no streams. The
program reads each on its standard input, and what it prints must equal what
reference.program says, byte for byte.

    python3 tests/compare.py                      all cores, crates/preview/out/preview
    python3 tests/compare.py --program PATH --seed 7 --inputs 50000
    python3 tests/compare.py --show 1234 >text    write one input out and stop
"""

import argparse
import collections
import itertools
import multiprocessing
import os
import random
import subprocess
import sys
import time

import reference

SEED = 20240611
INPUTS = 20000
BATCH = 40           # inputs handed to a worker at a time
SHOWN = 20           # differences shown in full
PATIENCE = 60        # seconds that the program may take over one input
SIDES = range(1, 7)
FLOORS = [2**i for i in range(15)]


# --- tables -------------------------------------------------------------------

def generation(place):
    """How many steps of the tree lie between place 0 and this one."""
    steps = 0
    while place:
        place //= 4
        steps += 1
    return steps


def signed(rng, magnitude):
    return rng.choice((-1, 1)) * min(magnitude, reference.LARGEST)


def dense(rng, k, floor):
    reach = rng.choice((1, 3, 2 * floor, 8 * floor, reference.LARGEST))
    return [signed(rng, rng.randint(0, reach)) for _ in range(4**k)]


def spikes(rng, k, floor):
    """A few numbers of any size among zeros."""
    table = [0] * 4**k
    for _ in range(rng.randint(0, 2 + k * k)):
        table[rng.randrange(4**k)] = signed(rng, floor * rng.randint(1, 2**rng.randrange(8)))
    return table


def falling(rng, k, floor):
    """Magnitudes that mostly halve from one generation to the next, as in a smooth surface."""
    first = rng.choice((floor, 4 * floor, 32 * floor, reference.LARGEST))
    return [signed(rng, rng.randint(0, 1 + (first >> generation(place))))
            for place in range(4**k)]


def rising(rng, k, floor):
    """Large leaves below small ancestors: found places under roots of later passes."""
    last = rng.choice((2 * floor, 16 * floor, reference.LARGEST))
    return [signed(rng, last >> rng.randint(0, 3 * (k - generation(place)) + 1))
            if rng.random() < 0.3 else 0 for place in range(4**k)]


def edges(rng, k, floor):
    """Numbers on and beside powers of two; with the low ones left out, every place may be found."""
    lowest = rng.choice((0, 0, 1, 2, 14))
    return [signed(rng, max(0, 2**rng.randint(lowest, 15) + rng.choice((-1, 0, 0, 1))))
            if lowest or rng.random() < 0.5 else 0 for _ in range(4**k)]


TABLES = (dense, spikes, falling, rising, edges)


LIE = {reference.ISOLATED_ZERO: reference.ZEROTREE_ROOT,
       reference.ZEROTREE_ROOT: reference.ISOLATED_ZERO}


def wander(rng, k):
    """Passes without a table: each finds a random few places, and now and then a label lies."""
    level = rng.randint(1, 15)
    lies = rng.choice((0, 0, 0.02, 0.2))
    branching, ancestors = reference.tree(k)
    bits = [format(k, '03b'), format(level, '04b')]
    found = set()
    for down in range(rng.randint(1, level)):
        share = rng.choice((0, 0.05, 0.3, 0.9)) if down else rng.choice((0.05, 0.3, 0.9))
        fresh = {place for place in range(4**k) if place not in found and rng.random() < share}
        if not down and not lies:
            fresh.add(rng.randrange(4**k))
        above = {ancestor for place in fresh for ancestor in ancestors[place]}
        roots = set()
        early = set(found)
        for place in range(4**k):
            if place in early or not roots.isdisjoint(ancestors[place]):
                continue
            if place in fresh:
                label = rng.choice((reference.POSITIVE, reference.NEGATIVE))
                found.add(place)
            elif branching[place] and place not in above:
                label = reference.ZEROTREE_ROOT
            else:
                label = reference.ISOLATED_ZERO
            if place not in fresh and rng.random() < (lies if branching[place] else lies / 20):
                label = LIE[label]
            if label == reference.ZEROTREE_ROOT:
                roots.add(place)
            bits.append(label)
        if down + 1 < level:
            bits.append(random_bits(rng, len(found)))
    return ''.join(bits)


# --- streams bent out of shape ------------------------------------------------

def random_bits(rng, count):
    return format(rng.getrandbits(count), f'0{count}b') if count else ''


def somewhere(rng, bits):
    """An index, the early ones and the last ones more often than the rest."""
    reach = rng.choice((len(bits), len(bits), min(len(bits), 40)))
    index = rng.randrange(reach)
    return index if rng.random() < 0.8 else len(bits) - 1 - index


def flipped(rng, bits, times):
    out = list(bits)
    for _ in range(times):
        index = somewhere(rng, bits)
        out[index] = '1' if out[index] == '0' else '0'
    return ''.join(out)


def appended(rng, bits):
    return bits + random_bits(rng, rng.choice((1, 1, 2, 3, 8, rng.randint(1, 200))))


def new_header(rng, bits):
    side, level = bits[:3], bits[3:7]
    change = rng.randrange(3)
    if change != 0:
        side = random_bits(rng, 3)
    if change != 1:
        level = random_bits(rng, 4)
    return side + level + bits[7:]


def bent(rng, bits, times):
    """The given number of changed streams."""
    for _ in range(times):
        change = rng.randrange(8)
        if change < 3:
            yield flipped(rng, bits, 1)
        elif change == 3:
            yield flipped(rng, bits, rng.randint(2, 6))
        elif change == 4:
            yield appended(rng, bits)
        elif change == 5:
            yield new_header(rng, bits)
        elif change == 6:
            index = somewhere(rng, bits)
            yield bits[:index] + bits[index + 1:]
        else:
            yield flipped(rng, bits[:1 + somewhere(rng, bits)], 1)


def cuts(rng, bits, times):
    """Some of the stream's beginnings; all with a header if there are no more than asked for."""
    ends = range(reference.HEADER - 1, len(bits))
    for end in ends if len(ends) <= times else rng.sample(ends, times):
        yield bits[:end]


# --- texts --------------------------------------------------------------------

def spoiled(rng, text):
    """A text with a byte or two that do not belong."""
    bad = rng.choice((b'2', b'/', b' ', b'\n', b'\r', b'\0', b'o', b'-', b'\xff', b'\xc2\xb0',
                      b'\t', bytes((rng.randrange(256),))))
    index = rng.choice((0, len(text), rng.randint(0, len(text))))
    ending = rng.choice((b'', b'\n', b'\n', b'\r\n', b'\n\n'))
    return text[:index] + bad + text[index:] + ending


def odd_texts(rng):
    """Texts that are no streams, and texts about the largest size."""
    yield from (b'', b'\n', b'\n\n', b'\r\n', b' ', b'0', b'1\n', b'000000', b'111111\n',
                b'0000000', b'1111111\n', b'0100000', b'0100000\n', b'0100000\n\n',
                b'0100000\r\n', b'\n0100000', b'010\n0000', b'0100101100101011',
                b'0100101100101011\n', b'\xef\xbb\xbf0100000')
    for limit in (65535, 65536, 65537):
        for ending in (b'', b'\n'):
            yield b'0' * limit + ending
            yield b'0100000' + b'0' * (limit - 7) + ending
            yield b'1101111' + random_bits(rng, limit - 7).encode() + ending
            yield b'0' * (limit - 1) + b'x' + ending
    yield b'01' * 50000 + b'x'
    yield b'1' * 200000
    # A dense table of the largest side fills the longest text with taken symbols.
    table = [signed(rng, rng.randint(20000, 32767)) for _ in range(4**6)]
    full = reference.encode(6, 1, table).encode()
    for limit in (65534, 65535, 65536, 65537, len(full)):
        for ending in (b'', b'\n'):
            yield full[:limit] + ending
    for _ in range(200):
        yield spoiled(rng, random_bits(rng, rng.randint(0, 60)).encode())
    for count in itertools.chain(range(12), range(12)):
        yield random_bits(rng, count).encode() + rng.choice((b'', b'\n'))


# How often the tables of a side are drawn, how many beginnings and how many
# changed streams each gives: small sides many times, large ones seldom.
SHARES = {1: (3, 130, 30), 2: (4, 100, 60), 3: (4, 30, 40),
          4: (3, 20, 24), 5: (2, 10, 14), 6: (2, 6, 8)}


def streams(rng):
    """One round: every side at every floor."""
    for k in SIDES:
        draws, beginnings, changes = SHARES[k]
        for floor in FLOORS:
            for make in rng.sample(TABLES, draws):
                bits = reference.encode(k, floor, make(rng, k, floor))
                yield bits
                yield from cuts(rng, bits, beginnings)
                yield from bent(rng, bits, changes)
        for _ in range(4 * changes):
            bits = wander(rng, k)
            yield bits
            yield from cuts(rng, bits, 3)
            yield from bent(rng, bits, 3)
        for _ in range(3 * changes):
            header = format(k, '03b') + random_bits(rng, 4)
            yield header + random_bits(rng, rng.randint(0, 4 ** rng.randint(1, k + 2)))


def texts(seed, wanted):
    """All inputs of a seed: rounds until there are enough, the last one whole."""
    rng = random.Random(seed)
    made = 0
    yield from odd_texts(rng)
    while made < wanted:
        for bits in streams(rng):
            text = bits.encode()
            if rng.random() < 0.02:
                yield spoiled(rng, text)
            else:
                yield text + rng.choice((b'', b'\n'))
            made += 1


# --- running and comparing ------------------------------------------------------

def answer_of(path, text):
    """What the program prints, and a remark if it did not end by itself."""
    try:
        done = subprocess.run([path], input=text, stdout=subprocess.PIPE,
                              stderr=subprocess.PIPE, timeout=PATIENCE, close_fds=False)
    except subprocess.TimeoutExpired:
        return b'', f'no answer within {PATIENCE} s'
    if done.returncode < 0:
        return done.stdout, f'killed by signal {-done.returncode}'
    return done.stdout, ''


def compare(work):
    """Run one batch. Answers the refusal of each input (or None) and the differences."""
    path, batch = work
    outcomes = collections.Counter()
    differences = []
    for number, text in batch:
        wanted = reference.program(text).encode()
        got, remark = answer_of(path, text)
        words = wanted.split()
        outcomes[int(words[1]) if words[0] == b'refused' else None] += 1
        if got != wanted or remark:
            differences.append((number, text, wanted, got, remark))
    return outcomes, differences


def batches(path, numbered):
    while batch := list(itertools.islice(numbered, BATCH)):
        yield path, batch


def shortened(data, limit=240):
    shown = repr(data[:limit])[1:]
    return shown if len(data) <= limit else f'{shown} .. ({len(data)} bytes)'


def show(number, text, wanted, got, remark):
    print(f'input {number}{", " + remark if remark else ""}')
    print(f'  text      {shortened(text)}')
    differ = next((i for i, (a, b) in enumerate(zip(wanted, got)) if a != b),
                  min(len(wanted), len(got)))
    start = max(0, differ - 60)
    print(f'  first differing byte of the answer: {differ}; from byte {start}:')
    print(f'  reference {shortened(wanted[start:])}')
    print(f'  program   {shortened(got[start:])}')


def main():
    options = argparse.ArgumentParser(description='Compare the previewing program with reference.py.')
    options.add_argument('--program', default='crates/preview/out/preview', help='path (default %(default)s)')
    options.add_argument('--seed', type=int, default=SEED, help='default %(default)s')
    options.add_argument('--inputs', type=int, default=INPUTS, help='at least so many (default %(default)s)')
    options.add_argument('--jobs', type=int, default=os.cpu_count(), help='processes (default: all cores)')
    options.add_argument('--show', type=int, metavar='N', help='write input N to standard output and stop')
    given = options.parse_args()

    numbered = enumerate(texts(given.seed, given.inputs))
    if given.show is not None:
        for number, text in numbered:
            if number == given.show:
                sys.stdout.buffer.write(text)
                return 0
        print('no such input', file=sys.stderr)
        return 2

    path = os.path.abspath(given.program)
    if not os.access(path, os.X_OK):
        print(f'no program at {path}', file=sys.stderr)
        return 2
    print(f'seed {given.seed}, program {given.program}', flush=True)

    start = time.monotonic()
    outcomes = collections.Counter()
    differing = 0
    with multiprocessing.Pool(given.jobs) as pool:
        for counted, differences in pool.imap(compare, batches(path, numbered)):
            outcomes += counted
            for difference in differences:
                differing += 1
                if differing <= SHOWN:
                    show(*difference)
    seconds = time.monotonic() - start

    print(f'{sum(outcomes.values())} inputs in {seconds:.0f} s: {outcomes[None]} printed as tables')
    for number in sorted(n for n in outcomes if n is not None):
        print(f'  refused {number:2}: {outcomes[number]}')
    print(f'{differing} differences')
    return 1 if differing else 0


if __name__ == '__main__':
    sys.exit(main())
