#!/usr/bin/env python3
"""Cases for the merge (docs/RULES.md, M) with exact fractions, written from the rules and from nothing else; and colours of the ISO reference software (colours.txt, made by colours.py), to which step 1 is held.

  merge.py CASES LINES     writes the cases (their number, then each: fourteen numbers, nine weights, three lists) and the lines that are expected: number, place,
                           second place, the whole destination

crates/merge_vectors reads the cases on standard input and must write the lines:
  python3 tools/vectors/merge.py crates/merge_vectors/stdin crates/merge_vectors/stdout && rt ci merge_vectors
"""
import os
import random
import sys
from fractions import Fraction as F
from fields import numbers, raw_sizes, raw_values

FILL = 4660
SECOND = 0      # N17: "All other answers carry 0 as second place."; others than those of planes that are read
MIN, MAX = -2**31, 2**31 - 1


def nearest(x):
    """Round to nearest, halves up."""
    x = F(x) + F(1, 2)
    return x.numerator // x.denominator


def clip(v, bits):
    return max(0, min(v, 2**bits - 1))


def srgb_table():
    out = []
    for c in range(256):
        if c <= 10:
            out.append(nearest(F(25700 * c, 1292)))
            continue
        t = 0
        while not (2 * t - 1)**5 * 53805**12 <= 131070**5 * (200 * c + 2805)**12 < (2 * t + 1)**5 * 53805**12:
            t += 1
        out.append(t)
    return out


SRGB = srgb_table()
assert [SRGB[c] for c in (0, 1, 10, 255)] == [0, 20, 199, 65535]


def ycbcr(y, cb, cr, centre):
    cb, cr = cb - centre, cr - centre
    return [F(y) + F(1402000, 10**6) * cr,
            F(y) - F(344136, 10**6) * cb - F(714136, 10**6) * cr,
            F(y) + F(1772000, 10**6) * cb]


def reference_colours(rh):
    """Y, Cb, Cr and the red, green, blue that the ISO reference software shows for them, at Rh."""
    with open(os.path.join(os.path.dirname(os.path.abspath(__file__)), 'colours.txt')) as f:
        return [line[1:] for line in (list(map(int, text.split())) for text in f) if line[0] == rh]


class Case:
    """One call; every field is a keyword."""
    def __init__(self, **kw):
        self.rb, self.rh, self.rr, self.components, self.pixels = 8, 0, 0, 1, 1
        self.base_transform = self.curve = self.matrix_on = self.residual_on = self.residual_transform = 0
        self.weights = [0] * 9
        self.base, self.residual, self.table = [], [], []
        self.room = None
        for k, v in kw.items():
            assert hasattr(self, k), k
            setattr(self, k, v)
        if self.room is None:
            self.room = len(self.base) + 2

    def packed(self):
        head = [self.rb, self.rh, self.rr, self.components, self.pixels, self.base_transform, self.curve, self.matrix_on,
                self.residual_on, self.residual_transform, len(self.base), len(self.residual), len(self.table), self.room]
        return numbers(*head) + raw_sizes([x + 2**15 for x in self.weights]) + raw_values(self.base + self.residual) + raw_sizes(self.table)

    def answer(self):
        """Number, place and the samples handed out."""
        if not (1 <= self.rb <= 8 and 0 <= self.rh <= 4 and 0 <= self.rr <= 4 and self.components in (1, 3) and 0 <= self.pixels <= 65536):
            return 20, 0, None
        if self.components == 1 and (self.base_transform or self.matrix_on or self.residual_transform):
            return 20, 0, None
        if self.curve == 2 and (self.rh, self.rb) != (0, 8):
            return 20, 0, None
        n = self.components * self.pixels
        if len(self.base) != n or len(self.residual) != (n if self.residual_on else 0):
            return 21, 0, None
        if len(self.table) != (2**(8 + self.rh) if self.curve == 1 else 0):
            return 21, 0, None
        for i, x in enumerate(self.table):
            if x > 2**(8 + self.rb) - 1:
                return 11, i, None
        if self.room < n:
            return 9, n, None
        out = [None] * n
        for p in range(self.pixels):
            for k, v in enumerate(self.pixel(p)):
                out[k * self.pixels + p] = v
        return 0, n, out

    def pixel(self, p):
        at = [k * self.pixels + p for k in range(self.components)]
        b = [self.base[i] for i in at]
        # 1
        if self.base_transform:
            b = ycbcr(*b, 2**(7 + self.rh))
        b = [clip(nearest(v), 8 + self.rh) for v in b]
        # 2
        if self.curve == 0:
            b = [nearest(F(x * (2**(8 + self.rb) - 1), 2**(8 + self.rh) - 1)) for x in b]
        else:
            b = [(self.table if self.curve == 1 else SRGB)[x] for x in b]
        # 3
        if self.matrix_on:
            b = [nearest(sum(F(self.weights[3 * k + j], 8192) * b[j] for j in range(3))) for k in range(3)]
        # 4, 5
        if self.residual_on:
            r = [nearest(F(self.residual[i]) * F(2)**(self.rb - self.rr)) for i in at]
            if self.residual_transform:
                r = [nearest(v) for v in ycbcr(*r, 2**(7 + self.rb))]
            b = [x + y - 2**(7 + self.rb) for x, y in zip(b, r)]
        return [clip(v, 8 + self.rb) for v in b]

    def line(self):
        number, place, out = self.answer()
        held = [0] * self.room if number else out + [FILL] * (self.room - len(out))
        return ' '.join(map(str, [number, place, SECOND] + held))


rnd = random.Random(18477)


def sample(bits, wild):
    """A sample of so many bits, or anything."""
    k = rnd.randrange(6) if wild else 0
    if k < 2:
        return rnd.randrange(2**bits)
    if k == 2:
        return rnd.randrange(-2**bits, 2 * 2**bits)
    if k == 3:
        return rnd.choice([MIN, MIN + 1, MAX, MAX - 1, 0, -1, 1])
    return rnd.randrange(MIN, MAX + 1)


def weight():
    return rnd.choice([rnd.randrange(-2**15, 2**15), rnd.randrange(-9000, 9000), 0, 8192, -8192, 4096, -32768, 32767])


def good(wild):
    """A case that is in all ranges."""
    rb, rh, rr = rnd.randrange(1, 9), rnd.randrange(5), rnd.randrange(5)
    curve = rnd.choice([0, 0, 0, 1, 2])
    if curve == 2:
        rb, rh = 8, 0
    if curve == 1:
        rh = rnd.choice([0, 0, 1])
    c = rnd.choice([1, 3, 3])
    n = rnd.randrange(0, 5)
    on = rnd.randrange(2)
    kw = dict(rb=rb, rh=rh, rr=rr, components=c, pixels=n, curve=curve, residual_on=on)
    if c == 3:
        kw.update(base_transform=rnd.randrange(2), matrix_on=rnd.randrange(2), residual_transform=rnd.randrange(2))
        kw.update(weights=[weight() for _ in range(9)])
    kw['base'] = [sample(8 + rh, wild) for _ in range(c * n)]
    if on:
        kw['residual'] = [sample(8 + rr, wild) for _ in range(c * n)]
    if curve == 1:
        kw['table'] = [rnd.randrange(2**(8 + rb)) for _ in range(2**(8 + rh))]
    return kw


def cases():
    # the whiteboard: f through a straight curve at Rb 8, g, h
    yield Case(rb=8, components=3, base_transform=1, base=[100, 128, 138])
    yield Case(rb=4, base=[128])
    yield Case(rb=4, residual_on=1, base=[128], residual=[129])
    yield Case(rb=4, rr=4, residual_on=1, pixels=3, base=[128, 255, 0], residual=[2050, 2100, 2000])
    yield Case(curve=2, pixels=4, base=[0, 1, 10, 255])
    # the whole sRGB table, 32 entries at a time
    for i in range(0, 256, 32):
        yield Case(curve=2, pixels=32, base=list(range(i, i + 32)))
    # halves: a matrix of 1/2 and of -1/2, a residual scaled by 1/2, 1/4, 1/8
    for w in (4096, -4096):
        yield Case(rb=1, components=3, pixels=4, matrix_on=1, weights=[w, 0, 0, 0, w, 0, 0, 0, w], residual_on=1, rr=1, base=list(range(12)), residual=[256] * 12)
    for rb, rr in ((1, 2), (1, 3), (1, 4), (2, 3), (2, 4), (3, 4)):
        yield Case(rb=rb, rr=rr, pixels=40, residual_on=1, base=[60] * 40, residual=[2**(7 + rr) + d for d in range(-20, 20)])
    # every Rb with every Rr, transform on, far values
    for rb in range(1, 9):
        for rr in range(5):
            yield Case(rb=rb, rr=rr, components=3, pixels=2, residual_on=1, residual_transform=1, base=[7, 77, 177, 250, 128, 3],
                       residual=[sample(8 + rr, False), MIN, 2**(7 + rr) + 3, MAX, 2**(7 + rr) - 5, MIN])
    # grey at Rh 4 (S11), through the straight curve at Rb 4, which leaves it
    yield Case(rb=4, rh=4, components=3, base_transform=1, base=[2048, 2048, 2048])
    # every Rh, both transforms on and off: grey, Cb and Cr one away from the centre and at both ends, f as many bits deeper; Rb is never Rh
    for rh in range(5):
        c, top, rb, rr = 2**(7 + rh), 2**(8 + rh) - 1, (6, 3, 7, 8, 5)[rh], (2, 4, 0, 3, 1)[rh]
        colours = [(c, c, c), (0, c, c), (top, c, c), (c, c + 1, c), (c, c, c - 1), (c, 0, top), (c, top, 0), (100 << rh, c, 138 << rh), (90 << rh, 80 << rh, 100 << rh)]
        d = 2**(7 + rr)
        tints = [(d, d, d), (d + 9, d, d), (d, d + 1, d), (d, d, d - 1), (d, d - 7, d + 5), (d, d + 40, d), (d - 3, d, d - 20), (0, d, d), (2 * d - 1, 2, 3)]
        for base_transform, residual_transform in ((0, 0), (0, 1), (1, 0), (1, 1)):
            yield Case(rb=rb, rh=rh, rr=rr, components=3, pixels=len(colours), base_transform=base_transform, residual_on=1, residual_transform=residual_transform,
                       base=[p[k] for k in range(3) for p in colours], residual=[p[k] for k in range(3) for p in tints])
        yield Case(rb=rb, rh=rh, components=3, pixels=len(colours), base_transform=1, base=[p[k] for k in range(3) for p in colours])
    # colours of the reference software, twelve at a time: the straight curve leaves them at Rb = Rh, and makes 257 of 1 at Rh 0 and Rb 8
    for rh, six in ((rh, reference_colours(rh)[i:i + 12]) for rh in range(5) for i in (0, 12)):
        case = Case(rb=rh or 8, rh=rh, components=3, pixels=len(six), base_transform=1, base=[p[k] for k in range(3) for p in six])
        assert case.answer() == (0, 3 * len(six), [p[k] * (1 if rh else 257) for k in range(3, 6) for p in six])
        yield case
    # far values through step 1
    for rh in range(5):
        yield Case(rb=8, rh=rh, components=3, pixels=5, base_transform=1, base=[MIN, MAX, 0, 300, -300, MAX, MIN, 0, 128, 500, MIN, MAX, 0, 28, 128])
        yield Case(rb=3, rh=rh, components=1, pixels=6, base=[MIN, MAX, -1, 0, 2**(8 + rh) - 1, 2**(8 + rh)])
    # without a residual the result is clipped
    yield Case(rb=1, components=3, pixels=2, matrix_on=1, weights=[32767, 32767, 32767, -32768, -32768, -32768, 0, 8192, 0], base=[255, 1, 255, 2, 255, 3])
    # the largest lent table
    yield Case(rb=8, rh=4, curve=1, pixels=4, base=[0, 1, 4095, 5000], table=[(i * 40503) % 65536 for i in range(4096)])
    # 20, each setting by itself, used or not
    for kw in (dict(rb=0), dict(rb=9), dict(rb=2**32 - 1), dict(rh=5), dict(rr=5), dict(rr=5, residual_on=1, residual=[1]), dict(components=0), dict(components=2),
               dict(components=4), dict(components=2**31), dict(pixels=65537), dict(pixels=2**32 - 1), dict(base_transform=1), dict(matrix_on=1), dict(residual_transform=1),
               dict(residual_transform=1, residual_on=1, residual=[1]), dict(curve=2, rb=7), dict(curve=2, rh=1), dict(curve=2, rb=8, rh=4)):
        yield Case(**{**dict(base=[5]), **kw})
    yield Case(rb=0, base=[])                                     # 20 before 21
    yield Case(curve=2, rb=7, base=[])
    # 21
    yield Case(base=[])
    yield Case(base=[1, 2])
    yield Case(components=3, base=[1, 2])
    yield Case(pixels=65536, base=[1])
    yield Case(base=[1], residual=[1])                            # not used, so it must be empty
    yield Case(base=[1], residual_on=1)
    yield Case(base=[1], residual_on=1, residual=[1, 2])
    yield Case(base=[1], table=[1])
    yield Case(curve=2, base=[1], table=SRGB)
    yield Case(curve=1, base=[1])
    yield Case(curve=1, base=[1], table=[0] * 255)
    yield Case(curve=1, base=[1], table=[0] * 257)
    yield Case(curve=1, rh=1, base=[1], table=[0] * 256)
    yield Case(curve=1, rb=1, base=[], table=[600] * 256)         # 21 before 11
    # 11, the first of two, also with no pixels, and before 9
    yield Case(curve=1, rb=1, base=[1], table=[511] * 100 + [512] + [0] * 154 + [65535])
    yield Case(curve=1, rb=1, base=[1], table=[511] * 255 + [512])
    yield Case(curve=1, rb=1, pixels=0, table=[65535] * 256, room=3)
    yield Case(curve=1, rb=1, base=[1], table=[512] * 256, room=0)
    yield Case(curve=1, rb=7, base=[255], table=[32767] * 256)    # the largest that may stand
    # 9, with room one short, none, and just enough
    for room in (0, 5, 6):
        yield Case(rb=5, components=3, pixels=2, base=[1, 2, 3, 4, 5, 6], room=room)
    yield Case(pixels=0, room=0)
    yield Case(pixels=0, components=3, room=4)
    # anything
    for i in range(150):
        yield Case(**good(i % 2 == 1))


def main():
    made = list(cases())
    data = numbers(len(made)) + b''.join(c.packed() for c in made)
    with open(sys.argv[1], 'wb') as f:
        f.write(data)
    with open(sys.argv[2], 'w') as f:
        f.write(''.join(c.line() + '\n' for c in made))
    print(len(made), 'cases,', len(data), 'bytes')


if __name__ == '__main__':
    if len(sys.argv) != 3:
        sys.exit(__doc__)
    main()
