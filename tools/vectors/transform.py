#!/usr/bin/env python3
"""transform.py: blocks and refusals for the inverse transform, computed here by the rules (docs/RULES.md, T) and T.81 alone.

  python3 tools/vectors/transform.py            writes crates/transform_vectors/stdin and stdout
  python3 tools/vectors/transform.py --check    only says whether the two files are what it would write

Nothing is taken from crates/: the zigzag order is walked step by step, each kernel entry is the rounded cosine of T.81's formula
itself (which must be one of the nine values of T7 up to its sign), the sums are exact integers, and each sample is also held to
T.81's real formula.

A record is R, blocks, room, number and place to be answered; the values; the quantisers; and what the call must hand out. Before it, the destination holds sevens.
The second place is 0 in each answer of this call, and has no column."""
import math, os, random, sys
import fields

NINE = [8192, 8035, 7568, 6811, 5793, 4551, 3135, 1598, 0]


def kernel(x, u):
    if u == 0:
        return 5793
    k = round(8192 * math.cos((2 * x + 1) * u * math.pi / 16))
    assert abs(k) in NINE, (x, u, k)
    return k


K = [[kernel(x, u) for u in range(8)] for x in range(8)]


def walk():
    """T.81, Figure 5: (row v, column u) of each zigzag index: up to the right, then down to the left, turning at the edges."""
    v = u = 0
    up = True
    places = []
    for _ in range(64):
        places.append((v, u))
        if up:
            if u == 7: v, up = v + 1, False
            elif v == 0: u, up = u + 1, False
            else: v, u = v - 1, u + 1
        else:
            if v == 7: u, up = u + 1, True
            elif u == 0: v, up = v + 1, True
            else: v, u = v + 1, u - 1
    return places


WALK = walk()
assert WALK[1] == (0, 1) and WALK[2] == (1, 0) and WALK[63] == (7, 7) and len(set(WALK)) == 64


def real(s, x, y, r):
    """T.81, A.3.3, the ideal inverse transform, with the level shift of refinement r."""
    c = lambda f: math.sqrt(0.5) if f == 0 else 1.0
    return 0.25 * sum(
        c(u) * c(v) * s[v][u] * math.cos((2 * x + 1) * u * math.pi / 16) * math.cos((2 * y + 1) * v * math.pi / 16)
        for v in range(8) for u in range(8)) + 2 ** (7 + r)


def dequantised(values, quantisers):
    """T6: the products of one block by row v and column u."""
    s = [[0] * 8 for _ in range(8)]
    for i, (v, u) in enumerate(WALK):
        s[v][u] = values[i] * quantisers[i]
    return s


def sample(r, s, y, x):
    """T7 to T9: the sample of row y, column x."""
    total = sum(K[x][u] * K[y][v] * s[v][u] for v in range(8) for u in range(8))
    return (total + 2 ** 27) // 2 ** 28 + 2 ** (7 + r)


def samples(r, values, quantisers):
    """The rules T6 to T9 for one block, and a look at T.81's own formula beside it."""
    s = dequantised(values, quantisers)
    size = sum(abs(e) for row in s for e in row)
    out = []
    for y in range(8):
        for x in range(8):
            out.append(sample(r, s, y, x))
            assert abs(out[-1] - real(s, x, y, r)) < 0.51 + size / 2 ** 14
    return out


def in_range(level, i, value):
    top = 2 ** (11 + level) - 1
    return (-top - 1 if i % 64 == 0 else -top) <= value <= top


def answer(r, blocks, values, quantisers, room):
    """Number, place and what is handed out, the refusals in their order (N9): 20, 21, 22, 11, 9."""
    refused = lambda number, place: (number, place, [])
    if r > 4 or blocks > 1024:
        return refused(20, 0)
    if len(values) != 64 * blocks or len(quantisers) != 64:
        return refused(21, 0)
    for i, q in enumerate(quantisers):
        if not 1 <= q <= 255:
            return refused(22, i)
    for i, value in enumerate(values):
        if not in_range(r, i, value):
            return refused(11, i)
    if room < 64 * blocks:
        return refused(9, 64 * blocks)
    written = [s for b in range(blocks) for s in samples(r, values[64 * b:64 * b + 64], quantisers)]
    return 0, len(written), written


RECORDS = []


def group(name, cases):
    for wanted, (r, blocks, values, quantisers, room) in cases:
        number, place, written = answer(r, blocks, values, quantisers, room)
        assert wanted in (None, (number, place)), (name, wanted, number, place)
        RECORDS.append((name, fields.numbers(r, blocks, room, number, place) + fields.values(values) + fields.sizes(quantisers) + fields.values(written)))


rng = random.Random(18477)
ONES = [1] * 64
ZEROS = [0] * 64
top = lambda r: 2 ** (11 + r) - 1
one_at = lambda i, value, n=64: [value if k == i else 0 for k in range(n)]
q_at = lambda i, value: [value if k == i else 1 + k for k in range(64)]


def random_values(r, blocks):
    out = []
    for _ in range(blocks):
        spread = rng.choice([3, 40, top(r)])
        few = rng.choice([4, 20, 64])
        out += [rng.randint(-spread, spread) if i < few else 0 for i in range(64)]
    return out


def random_case(r):
    blocks = rng.randint(1, 3)
    most = rng.choice([4, 60, 255])
    return r, blocks, random_values(r, blocks), [rng.randint(1, most) for _ in range(64)], 64 * blocks


def extreme(r, q):
    """All at the top, at the bottom, and with the signs that make the sum at one sample as large and as small as it can be."""
    low = [-top(r) - 1] + [-top(r)] * 63
    yield [top(r)] * 64
    yield low
    yield [top(r) if i % 2 else e for i, e in enumerate(low)]
    for x, y in ((0, 0), (7, 7), (3, 4)):
        signs = [K[x][u] * K[y][v] > 0 for v, u in WALK]
        yield [top(r) if s else e for s, e in zip(signs, low)]
        yield [e if s else top(r) for s, e in zip(signs, low)]


for r in range(5):
    group(f'random blocks at R {r}', [((0, c[4]), c) for c in (random_case(r) for _ in range(4))])
for r in (0, 4):
    group(f'largest and smallest values and quantisers at R {r}',
          [((0, 64), (r, 1, values, [q] * 64, 64)) for q in (1, 255) for values in extreme(r, q)])
alone = [e for i in range(64) for e in one_at(i, rng.choice([-1, 1]) * rng.randint(200, 2047))]
group('each frequency alone, each quantiser its own', [((0, 4096), (0, 64, alone, [1 + 37 * i % 255 for i in range(64)], 4096))])
group('case e', [((0, 64), (0, 1, one_at(0, s), ONES, 64)) for s in (16, 3, 4, -4)])
group('what lies past the written part', [((0, 64), (2, 1, random_values(2, 1), q_at(0, 7), 64 + more)) for more in (1, 5, 64)])
group('no blocks', [((0, 0), (r, 0, [], q_at(0, 9), room)) for r, room in ((0, 0), (4, 0), (1, 10))])
group('refusal 20', [((20, 0), c) for c in (
    (5, 1, ZEROS, ONES, 64), (65535, 1, ZEROS, ONES, 64), (0, 1025, ZEROS, ONES, 64), (4, 65535, [], ONES, 70), (5, 1025, [], [], 3),
    (5, 0, [], ONES, 0))])
group('refusal 21', [((21, 0), c) for c in (
    (0, 1, ZEROS[:63], ONES, 64), (0, 1, ZEROS + [0], ONES, 64), (4, 1024, ZEROS, ONES, 64), (0, 0, [0], ONES, 8), (1, 1, ZEROS, ONES[:63], 64),
    (1, 1, ZEROS, ONES + [1], 64), (1, 0, [], [], 5), (3, 2, ZEROS, ONES, 128))])
group('refusal 22', [((22, i), (0, 1, ZEROS, q_at(i, bad), 70)) for i, bad in ((0, 0), (63, 0), (0, 256), (17, 256), (40, 65535))]
      + [((22, 5), (0, 1, ZEROS, [0 if k in (5, 9) else 255 for k in range(64)], 64)), ((22, 3), (0, 0, [], q_at(3, 0), 2))])
group('refusal 11', [((11, i), (r, 2, one_at(i, v, 128), ONES, 130)) for r in range(5) for i, v in (
    (0, top(r) + 1), (0, -top(r) - 2), (64, top(r) + 1), (1, top(r) + 1), (1, -top(r) - 1), (127, -top(r) - 1))]
      + [((11, 66), (0, 2, [3000 if k in (66, 90) else 0 for k in range(128)], ONES, 128))])
group('values just inside', [((0, 64), (r, 1, one_at(i, v), ONES, 64)) for r in range(5) for i, v in (
    (0, top(r)), (0, -top(r) - 1), (1, top(r)), (63, -top(r)))])
group('refusal 9', [((9, 64 * b), (1, b, [0] * (64 * b), ONES, room)) for b, room in ((1, 63), (1, 0), (3, 191), (64, 100))])
group('the order of refusals', [
    ((20, 0), (5, 1, one_at(1, 9999), [0] * 63, 1)), ((20, 0), (0, 1025, one_at(1, 9999), q_at(0, 0), 1)),
    ((21, 0), (0, 1, one_at(1, 9999, 65), q_at(0, 0), 1)), ((21, 0), (0, 1, one_at(1, 9999), [0] * 65, 1)),
    ((22, 8), (0, 1, one_at(1, 9999), q_at(8, 0), 1)), ((22, 8), (0, 1, ZEROS, q_at(8, 999), 1)),
    ((11, 1), (0, 1, one_at(1, 9999), ONES, 1)), ((9, 64), (0, 1, ZEROS, ONES, 1))])

if __name__ == '__main__':
    folder = os.path.join(os.path.dirname(os.path.abspath(__file__)), '..', '..', 'crates', 'transform_vectors')
    stdin, stdout = (os.path.join(folder, name) for name in ('stdin', 'stdout'))
    if '--check' in sys.argv[1:]:
        same = open(stdin, 'rb').read() == fields.data(RECORDS) and open(stdout).read() == fields.text(RECORDS)
        print('as computed here' if same else 'NOT as computed here')
        sys.exit(not same)
    fields.write(RECORDS, stdin, stdout)
