#!/usr/bin/env python3
"""How near what merged results owe (docs/RULES.md, D10) comes to what a search finds, by merge.py's pixels.

  python3 tools/vectors/preview_results.py     for each kind of merge: at how many settings the search reached the bound, at how many it came within how much of it; nothing that is found may be beyond

A preview's samples are x, the full picture's d x and up to e more or less, d being 2^(k-j). Bounds above the range of the results are left out."""
import collections
import random
from fractions import Fraction as F
from merge import Case, nearest, ycbcr

WEIGHTS = ((0, 1402000), (344136, 714136), (1772000, 0))
SIGNS = ((0, 1), (-1, -1), (1, 0))
OWED = (0, 1, 8, 23, 53, 113, 446, 1336)
rnd = random.Random(18477)


def apart_rounded(d, e, m):
    return (2 * e + (d + 1) * m - 1) // (2 * m)


def top(r):
    return 2 ** (8 + r) - 1


def result_owes(rb, k, d, e):
    return apart_rounded(1, top(rb) * (e + d - 1), top(k))


def tint_owes(d, e, component):
    cb, cr = WEIGHTS[component]
    return apart_rounded(d, (1000000 + cb + cr) * e, 1000000)


def furthest(rb, k, j, full, preview, **more):
    """The largest distance of two merges of as many pixels, in each component."""
    whole = Case(rb=rb, rh=k, pixels=len(full[0]), components=len(full), base=sum(full, []), **more).answer()[2]
    shown = Case(rb=rb, rh=j, pixels=len(full[0]), components=len(full), base=sum(preview, []), **more).answer()[2]
    n = len(full[0])
    return [max(abs(a - b) for a, b in zip(whole[n * c:n * c + n], shown[n * c:n * c + n])) for c in range(len(full))]


def grey(rb, k, j, e):
    """One component: samples at both ends of the preview's range, and some between, with all that they can owe to either side."""
    d, white = 2 ** (k - j), top(j)
    xs = [x for near in (0, white) for x in range(max(0, near - 8), min(white, near + 8) + 1)] + [rnd.randint(0, white) for _ in range(16)]
    pairs = [(d * x + owed, x) for x in xs for owed in (-e, e)]
    yield result_owes(rb, k, d, e), furthest(rb, k, j, [[f for f, _ in pairs]], [[x for _, x in pairs]])[0]


def coloured(j, component, sign):
    """Pixels of a preview whose red, green or blue is white or black, as far as that can be had by Y, and rounded to the other side by as much as can be."""
    centre = 2 ** (7 + j)
    lost = lambda pixel: (sign * ycbcr(0, *pixel, centre)[component] + F(1, 2)) % 1
    some = sorted(((rnd.randint(0, top(j)), rnd.randint(0, top(j))) for _ in range(400)), key=lost)[-24:]
    return [(end - nearest(ycbcr(0, cb, cr, centre)[component]), cb, cr) for cb, cr in some for end in (0, top(j))]


def colours(rb, k, j, e):
    """Three components by the transform: each sample owes to the side that moves this component most."""
    d = 2 ** (k - j)
    for component, (of_cb, of_cr) in enumerate(SIGNS):
        pairs = [((d * y + s * e, d * cb + s * of_cb * e, d * cr + s * of_cr * e), (y, cb, cr)) for s in (1, -1) for y, cb, cr in coloured(j, component, s)]
        full, preview = ([[pixel[c] for pixel in side] for c in range(3)] for side in zip(*pairs))
        yield result_owes(rb, k, d, tint_owes(d, e, component)), furthest(rb, k, j, full, preview, base_transform=1)[component]


def told(name, search, settings):
    short = collections.Counter()
    for rb, k, j, e in settings:
        for allowed, found in search(rb, k, j, e):
            assert found <= allowed, (name, rb, k, j, e, found, allowed)
            if allowed <= top(rb):
                short[allowed - found] += 1
    print(f'{name}: {sum(short.values())} bounds, ' + ', '.join(f'{n} reached' if less == 0 else f'{n} missed by {less}' for less, n in sorted(short.items())) + '; none beyond')


def main():
    every = [(rb, k, j, e) for rb in range(1, 9) for k in range(1, 5) for j in range(k) for e in OWED]
    told('one component', grey, every)
    told('red, green and blue by the transform', colours, [s for s in every if s[3] in (8, 113) and s[0] in (1, 4, 8)])


if __name__ == '__main__':
    main()
