#!/usr/bin/env python3
"""Cases for the calls for C: those of merge.py and some more, with the matrix as a lent list, transforms by transform.py's own rule, and what previews owe, by the search of previews.py.

  calls.py CASES LINES     writes the cases (the number of merges, each: fifteen numbers and four lists; the number of transforms, each: five numbers and two lists;
                           the number of previews, each: three numbers and a list)
                           and the lines that are expected: number, place, second place (0 in all of them), the whole destination (a transform's samples with 2^31 added)

crates/c_vectors reads the cases on standard input and must write the lines:
  python3 tools/vectors/calls.py crates/c_vectors/stdin crates/c_vectors/stdout && rt ci c_vectors
"""
import sys
import merge
import previews
import transform
from fields import numbers, raw_sizes, raw_values


class Call(merge.Case):
    """A merge by numbers: an unknown one is 20, and a matrix has nine weights where it is on and none where it is not, else 21."""
    def __init__(self, matrix=None, **kw):
        super().__init__(**kw)
        self.matrix = matrix if matrix is not None else (self.weights if self.matrix_on else [])

    def packed(self):
        head = [self.rb, self.rh, self.rr, self.components, self.pixels, self.base_transform, self.curve, self.matrix_on, self.residual_on, self.residual_transform,
                len(self.base), len(self.residual), len(self.table), len(self.matrix), self.room]
        return numbers(*head) + raw_values(self.base + self.residual) + raw_sizes(self.table) + raw_sizes([x + 2**15 for x in self.matrix])

    def answer(self):
        if self.base_transform > 1 or self.curve > 2 or self.matrix_on > 1 or self.residual_on > 1 or self.residual_transform > 1:
            return 20, 0, None
        told = super().answer()
        if told[0] != 20 and len(self.matrix) != (9 if self.matrix_on else 0):
            return 21, 0, None
        return told


def merges():
    for case in merge.cases():
        fields = vars(case)
        yield Call(**fields)
    nine = [8192, 0, 0, 0, 8192, 0, 0, 0, 8192]
    three = dict(rb=4, rr=4, components=3, base=[1, 2, 3])
    # each unknown number, alone and before a wrong length
    for name, first in (('base_transform', 2), ('curve', 3), ('matrix_on', 2), ('residual_on', 2), ('residual_transform', 2)):
        for unknown in (first, 2**32 - 1):
            yield Call(**{**three, name: unknown})
            yield Call(**{**three, name: unknown, 'base': [1]})
    # each number that names something, the others 0
    for kw in (dict(base_transform=1), dict(residual_transform=1), dict(residual_on=1, residual=[2049, 2050, 2051]), dict(residual_on=1, residual_transform=1, residual=[2049, 2050, 2051]),
               dict(matrix_on=1, weights=[1000 * i for i in range(1, 10)])):
        yield Call(**{**three, **kw})
    # the matrix: none, eight, ten, nine that are not used; 20 before it, and it before 11 and 9
    for matrix in ([], nine[:8], nine + [1]):
        yield Call(**three, matrix_on=1, matrix=matrix)
    yield Call(**three, matrix=nine)
    yield Call(**{**three, 'rb': 9}, matrix=nine)
    yield Call(**three, matrix=nine, room=0)
    yield Call(**{**three, 'curve': 1, 'rb': 1}, table=[512] * 256, matrix=nine)
    # pictures that are large enough for a table of the straight curve, and as many pixels by each other curve
    rnd = merge.rnd
    for kw in (dict(rb=8), dict(rb=1, rh=1, pixels=1100), dict(rb=8, curve=2), dict(rb=5, curve=1, table=[rnd.randrange(2**13) for _ in range(256)])):
        n = kw.get('pixels', 600)
        yield Call(**{'pixels': n, 'base': [merge.sample(8 + kw.get('rh', 0), True) for _ in range(n)], **kw})
    for kw in (dict(rb=5, rr=2, residual_on=1, base_transform=1, residual_transform=1), dict(rb=8, matrix_on=1, weights=[merge.weight() for _ in range(9)])):
        on = kw.get('residual_on', 0)
        yield Call(components=3, pixels=520, base=[merge.sample(8, i % 2 == 0) for i in range(1560)], residual=[merge.sample(10, i % 2 == 0) for i in range(1560 * on)], **kw)


def transforms():
    ones, zeros = [1] * 64, [0] * 64
    one, q = transform.one_at, transform.q_at
    yield from ((0, 1, one(0, s), ones, 64) for s in (16, 3, 4, -4))
    yield (1, 1, one(1, 32), [32] * 64, 66)
    yield (1, 1, one(2, 32), [32] * 64, 66)
    yield (4, 3, transform.random_values(4, 3), [1 + 3 * i for i in range(64)], 192)
    yield (5, 1, zeros, ones, 64)
    yield (0, 1025, zeros, ones, 64)
    yield (0, 1, zeros[:63], ones, 64)
    yield (0, 1, zeros, ones + [1], 64)
    yield (0, 1, one(1, 9999), q(8, 0), 1)
    yield (0, 2, one(65, 2048, 128), ones, 1)
    yield (0, 2, one(64, -2048, 128), ones, 127)
    yield (4, 0, [], ones, 3)


def packed(case):
    r, blocks, values, quantisers, room = case
    return numbers(r, blocks, len(values), len(quantisers), room) + raw_values(values) + raw_sizes(quantisers)


def line(case):
    number, place, out = transform.answer(*case)
    room = case[4]
    held = [0] * room if number else out + [7] * (room - len(out))
    return ' '.join(map(str, [number, place, merge.SECOND] + [v + 2**31 for v in held]))


def main():
    first, second, third = list(merges()), list(transforms()), previews.cases()
    kinds = [[c.packed() for c in first], [packed(c) for c in second], [previews.packed(c) for c in third]]
    data = b''.join(numbers(len(cases)) + b''.join(cases) for cases in kinds)
    with open(sys.argv[1], 'wb') as f:
        f.write(data)
    with open(sys.argv[2], 'w') as f:
        f.write(''.join(l + ' \n' for l in [c.line() for c in first] + [line(c) for c in second] + [previews.line(c) for c in third]))
    print(len(first), 'merges,', len(second), 'transforms,', len(third), f'previews ({previews.told()}),', len(data), 'bytes')


if __name__ == '__main__':
    if len(sys.argv) != 3:
        sys.exit(__doc__)
    main()
