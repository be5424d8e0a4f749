#!/usr/bin/env python3
"""What a preview owes at each place of a block (docs/RULES.md, V), found by search, and the refusals of the call; calls.py writes these cases for crates/c_vectors.

  python3 tools/vectors/previews.py        says how many of the 64 places the search reached, for each table and each number of planes left

The search builds blocks at level 4, takes the full picture's sample and the preview's by transform.py's rule, and keeps the largest distance that it met: so much is owed
by some block. The formula is held to it: nothing that was found may be beyond the formula. Where each of the 64 places was reached, what was found is expected of the call;
an answer with a place that was not reached would be the formula's, and is counted apart.

A case is left, the number of quantisers, the length of the destination, and the quantisers. Before the call each number of the destination is FILL."""
import bisect
import functools
import random
from fields import numbers, raw_sizes
from merge import SECOND
from transform import K, WALK, dequantised, in_range, q_at, sample

FULL = 4
ONE = 2 ** 28
FILL = 305419896
TRIES = 16
rng = random.Random(18477)

LUMINANCE = [
    16, 11, 10, 16, 24, 40, 51, 61,
    12, 12, 14, 19, 26, 58, 60, 55,
    14, 13, 16, 24, 40, 57, 69, 56,
    14, 17, 22, 29, 51, 87, 80, 62,
    18, 22, 37, 56, 68, 109, 103, 77,
    24, 35, 55, 64, 81, 104, 113, 92,
    49, 64, 78, 87, 103, 121, 120, 101,
    72, 92, 95, 98, 112, 100, 103, 99]
CHROMINANCE = [
    17, 18, 24, 47, 99, 99, 99, 99,
    18, 21, 26, 66, 99, 99, 99, 99,
    24, 26, 56, 99, 99, 99, 99, 99,
    47, 66, 99, 99, 99, 99, 99, 99] + [99] * 32


def zigzagged(rows):
    return [rows[8 * v + u] for v, u in WALK]


def at_quality(rows, quality):
    """libjpeg's table for a quality of 50 or more."""
    return [min(255, max(1, (q * (200 - 2 * quality) + 50) // 100)) for q in rows]


TABLES = {
    'all 1': [1] * 64,
    'T.81 Table K.1': zigzagged(LUMINANCE),
    'T.81 Table K.2': zigzagged(CHROMINANCE),
    'Table K.1 at quality 90': zigzagged(at_quality(LUMINANCE, 90)),
    '1, and 255 at index 24': [255 if i == 24 else 1 for i in range(64)],
    'random': [rng.randint(1, 255) for _ in range(64)],
    'all 255': [255] * 64,
}


# ---- the search

def divided(values, d):
    """The preview's values: DC downward, AC toward zero."""
    return [values[0] // d] + [v // d if v > 0 else -(-v // d) for v in values[1:]]


def distance(left, values, quantisers, y, x):
    """The full picture's sample less that of the preview, the preview's times 2^left."""
    lower = divided(values, 2 ** left)
    assert all(in_range(FULL, i, v) for i, v in enumerate(values)) and all(in_range(FULL - left, i, v) for i, v in enumerate(lower))
    return sample(FULL, dequantised(values, quantisers), y, x) - 2 ** left * sample(FULL - left, dequantised(lower, quantisers), y, x)


def dc_parts(left, first):
    """What each DC value of a preview adds to the fraction of its sum, in 2^28ths, in order; `first` is DC's quantiser. It is the same at each place."""
    most = 2 ** (11 + FULL - left)
    return sorted((g * K[0][0] * K[0][0] * first % ONE, g) for g in range(-most, most))


def dc_up(parts, rest):
    """The DC value that takes the fraction of the preview's sum, half a unit added, as near to the next whole number as it can be."""
    return parts[bisect.bisect_right(parts, ((-1 - rest) % ONE, ONE)) - 1][1]


def dc_down(parts, rest):
    """The one that takes it as near above a whole number as it can be."""
    return parts[bisect.bisect_left(parts, ((-rest) % ONE, -ONE)) % len(parts)][1]


def worst(left, quantisers, parts, y, x, sign):
    """A block whose values each lack as much as they can, all to one side at this place, and whose preview is rounded to the other side by nearly a half."""
    d = 2 ** left
    weights = [K[x][u] * K[y][v] * q for (v, u), q in zip(WALK, quantisers)]
    lower = [0] + [sign * rng.randint(0, 3) * (1 if w > 0 else -1) for w in weights[1:]]
    rest = sum(w * g for w, g in zip(weights, lower)) + ONE // 2
    lacking = [sign * (d - 1) * (1 if w > 0 else -1) for w in weights[1:]]
    dc = d * dc_up(parts, rest) + d - 1 if sign > 0 else d * dc_down(parts, rest)
    return [dc] + [d * g + e for g, e in zip(lower[1:], lacking)]


def any_block():
    return [rng.randint(-2 ** 15 + 1, 2 ** 15 - 1) for _ in range(64)]


def found_at(left, quantisers, parts, y, x):
    """The largest distance met at a place: each value lacking to either side, and blocks of any values."""
    blocks = [worst(left, quantisers, parts, y, x, sign) for sign in (1, -1) for _ in range(TRIES)] + [any_block() for _ in range(TRIES // 4)]
    return max(abs(distance(left, b, quantisers, y, x)) for b in blocks)


def found(left, quantisers):
    parts = dc_parts(left, quantisers[0])
    return [found_at(left, quantisers, parts, y, x) for y in range(8) for x in range(8)]


# ---- the formula that is held to it

def formula(left, quantisers):
    d = 2 ** left
    weight = lambda y, x: sum(abs(K[x][u] * K[y][v]) * q for (v, u), q in zip(WALK, quantisers))
    return [(2 * (d - 1) * weight(y, x) + (d + 1) * ONE - 1) // (2 * ONE) for y in range(8) for x in range(8)]


@functools.lru_cache(None)
def owed(left, quantisers):
    """The 64 numbers that are expected, and at how many places the search reached the formula."""
    searched, most = found(left, quantisers), formula(left, quantisers)
    assert all(a <= b for a, b in zip(searched, most)), (left, quantisers)
    reached = sum(a == b for a, b in zip(searched, most))
    return searched if reached == 64 else most, reached


# ---- the call

def answer(left, quantisers, room):
    """Number and place, the refusals in their order: 20, 21, 22, 9."""
    if left > 4:
        return 20, 0
    if len(quantisers) != 64:
        return 21, 0
    for i, q in enumerate(quantisers):
        if not 1 <= q <= 255:
            return 22, i
    return (9, 64) if room < 64 else (0, 64)


def accepted():
    return [(left, q, 64 + left) for q in TABLES.values() for left in range(5)]


def refused():
    ones, bad = [1] * 64, [0] * 64
    yield from (((20, 0), (left, ones, 66)) for left in (5, 6, 2 ** 32 - 1))
    yield from (((21, 0), (4, (ones + [1])[:n], 66)) for n in (0, 63, 65))
    yield from (((22, i), (4, q_at(i, value), 66)) for i in (0, 8, 63) for value in (0, 256, 65535))
    yield (22, 8), (0, [0 if i in (8, 20) else 255 for i in range(64)], 64)
    yield from (((9, 64), (left, q_at(8, 255), room)) for left in (0, 4) for room in (0, 63))
    # two faults in one input, and all four
    yield (20, 0), (5, ones[:63], 66)
    yield (20, 0), (5, q_at(8, 0), 66)
    yield (20, 0), (5, ones, 63)
    yield (21, 0), (4, bad[:63], 66)
    yield (21, 0), (4, bad + [0], 66)
    yield (21, 0), (4, ones[:63], 63)
    yield (22, 8), (4, q_at(8, 256), 63)
    yield (20, 0), (5, bad[:63], 63)


def cases():
    for wanted, case in refused():
        assert answer(*case) == wanted, (wanted, case)
    return accepted() + [case for _, case in refused()]


def packed(case):
    left, quantisers, room = case
    return numbers(left, len(quantisers), room) + raw_sizes(quantisers)


def line(case):
    left, quantisers, room = case
    number, place = answer(*case)
    held = [0] * room if number else owed(left, tuple(quantisers))[0] + [FILL] * (room - 64)
    return ' '.join(map(str, [number, place, SECOND] + held))


def told():
    """How the cases came about."""
    whole = sum(owed(left, tuple(q))[1] == 64 for left, q, _ in accepted())
    return f'{whole} answers found by search, {len(accepted()) - whole} by the formula alone, {len(list(refused()))} refusals'


def main():
    for name, q in TABLES.items():
        reached = [owed(left, tuple(q))[1] for left in range(5)]
        print(f'{name}: with 0 to 4 planes left', ', '.join(map(str, reached)), 'of 64 places reached, none beyond')
    print(told())


if __name__ == '__main__':
    main()
