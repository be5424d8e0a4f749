#!/usr/bin/env python3
"""planes.py STDIN STDOUT: makes the vectors of refinement planes that crates/plane_vectors runs and what it must print, from libjpeg-turbo, from the ISO reference
software of JPEG XT, and from rules.py. README.md beside this file says what it needs. Prints what it made, a line for each group."""
import math, os, random, struct, subprocess, sys, tempfile
from rules import *
from fields import lent, numbers, write

HERE = os.path.dirname(os.path.abspath(__file__))
TMP = tempfile.mkdtemp()
records = []
READ_DC, WRITE_DC, READ_AC, WRITE_AC, TRIP_DC, TRIP_AC = 1, 2, 3, 4, 5, 6


def sparse(values):
    out, gap, entries = bytearray(), 0, 0
    for v in values:
        if v == 0:
            gap += 1
            continue
        while gap > 254:
            out += struct.pack('<Bh', 255, 0)
            gap -= 255
            entries += 1
        out += struct.pack('<Bh', gap, v) if -32768 < v < 32768 else struct.pack('<BhI', gap, -32768, v + (1 << 20))
        gap = 0
        entries += 1
    return struct.pack('<II', len(values), entries) + bytes(out)


def hold_second(read, data, answer):
    """N17 from another side: the bytes before the second place are too few, by the byte there; with that byte, and the one behind it where it is FF, they are enough."""
    number, place, second, _ = answer
    if not 12 <= number <= 17:
        assert second == 0
        return
    short = read(data[:second])
    assert (short[0], short[2]) == (12, second)
    if number == 12:
        assert second == len(data)
        return
    assert second < len(data) and (number != 13 or data[second] == 0xFF and data[second + 1] != 0)
    assert read(data[:second + (2 if data[second] == 0xFF else 1)]) == answer


def record(group, kind, plane, blocks, room, values, answer, counts=b'', codes=b'', data=b''):
    number, place, second, out = answer
    if kind in (READ_DC, READ_AC):
        hold_second(lambda d: read_dc(plane, blocks, d, values, room) if kind == READ_DC else read_ac(plane, blocks, counts, codes, d, values, room), data, answer)
    assert second == 0 or kind in (READ_DC, READ_AC)
    out = [] if number else out
    expected = sparse(out) if kind in (READ_DC, READ_AC) else lent(out)
    body = struct.pack('<BIII', kind, plane, blocks, room) + lent(counts) + lent(codes) + lent(data) + sparse(values)
    records.append((group, body + numbers(number, place, second) + expected))


def of_01(plane, blocks, values, table=None):
    """The plane by the rules of 01, which write a fourth one too."""
    return write_ac(plane, blocks, *table, values, 10 ** 6, retired=()) if table else write_dc(plane, blocks, values, 10 ** 6, retired=())


def both_ways(plane, blocks, new, data, table=None):
    """These values are these bytes by the rules of 01, and the bytes over the halves are read as these values. What our writer answers: the bytes, or that level 4 is retired."""
    if table:
        read = read_ac(plane, blocks, *table, data, [half(v) for v in new], len(new))
        written = write_ac(plane, blocks, *table, new, len(data))
    else:
        read = read_dc(plane, blocks, data, [v // 2 for v in new], len(new))
        written = write_dc(plane, blocks, new, len(data))
    assert read == given(new) and of_01(plane, blocks, new, table) == given(data)
    assert written == (refused(28, 0) if plane == 4 else given(data))
    return written


def named(group, plane, others=''):
    """Fourth planes stand in groups of their own."""
    return group + (', the fourth: read, and not written' if plane == 4 else others)


def trip(group, plane, blocks, new, data, table=None):
    """A record both ways ends with what writing answers; reading gives the values."""
    number, place, second, _ = both_ways(plane, blocks, new, data, table)
    counts, codes = table or (b'', b'')
    body = struct.pack('<BIII', TRIP_AC if table else TRIP_DC, plane, blocks, len(data)) + lent(counts) + lent(codes) + lent(data) + sparse(new)
    records.append((named(group, plane), body + numbers(number, place, second)))


# ---- pictures

def grey(name, width, height, depth, f):
    top = (1 << depth) - 1
    pixels = [max(0, min(top, int(f(x, y)))) for y in range(height) for x in range(width)]
    body = bytes(pixels) if depth == 8 else b''.join(struct.pack('>H', p) for p in pixels)
    path = os.path.join(TMP, name)
    with open(path, 'wb') as out:
        out.write(b'P5\n%d %d\n%d\n' % (width, height, top) + body)
    return path


def wavy(depth, noise, seed):
    rnd = random.Random(seed)
    unit = 1 << (depth - 8)
    return lambda x, y: unit * (128 + 50 * math.sin(x / 7) + 40 * math.cos(y / 5) + rnd.uniform(-noise, noise))


def built():
    """The program behind `coefficients`."""
    subprocess.run(['gcc', '-O1', '-o', os.path.join(TMP, 'coefficients'), os.path.join(HERE, 'coefficients.c'), '-ljpeg'], check=True)


def coefficients(jpeg):
    path = os.path.join(TMP, 'cut.jpg')
    with open(path, 'wb') as f:
        f.write(jpeg)
    text = subprocess.run([os.path.join(TMP, 'coefficients'), path], capture_output=True, check=True).stdout.decode().split('\n')
    return [list(map(int, line.split())) for line in text[1:] if line]


def scans(jpeg):
    """Each scan: where it begins, where its data begin and end, its bounds, and the AC tables in force."""
    at, tables, found = 2, {}, []
    while jpeg[at + 1] != 0xD9:
        marker, size = jpeg[at + 1], int.from_bytes(jpeg[at + 2:at + 4], 'big')
        body = jpeg[at + 4:at + 2 + size]
        if marker == 0xC4:
            i = 0
            while i < len(body):
                n = sum(body[i + 1:i + 17])
                tables[body[i]] = (body[i + 1:i + 17], body[i + 17:i + 17 + n])
                i += 17 + n
        start = at
        at += 2 + size
        if marker == 0xDA:
            end = at
            while not (jpeg[end] == 0xFF and jpeg[end + 1] != 0):
                end += 1
            first, last, bounds = body[-3], body[-2], body[-1]
            found.append((start, at, end, first, bounds >> 4, bounds & 15, tables.get(0x10 | body[2] & 15)))
            at = end
    return found


# ---- groups

def libjpeg_planes(width, height, planes, quality, picture):
    """The refinement scans of a progressive picture: plane, blocks, values before and behind it from libjpeg's coefficient calls, bytes, and the AC table."""
    script = ''.join(f'0: 0-0, {a}, {b};\n0: 1-63, {a}, {b};\n' for a, b in [(0, planes)] + [(l, l - 1) for l in range(planes, 0, -1)])
    names = [os.path.join(TMP, n) for n in ('scans.txt', 'p.jpg')]
    with open(names[0], 'w') as f:
        f.write(script)
    source = grey('p.pgm', width, height, 8, picture)
    subprocess.run(['cjpeg', '-quality', str(quality), '-grayscale', '-optimize', '-scans', names[0], '-outfile', names[1], source], check=True)
    jpeg = open(names[1], 'rb').read()
    for start, data, end, first, high, low, table in scans(jpeg):
        if high == 0:
            continue
        before, after = coefficients(jpeg[:start] + b'\xff\xd9'), coefficients(jpeg[:end] + b'\xff\xd9')
        if first == 0:
            old, new, table = [b[0] >> high for b in before], [b[0] >> low for b in after], None
            assert old == [v // 2 for v in new]
        else:
            level = lambda list_, shift: [(abs(v) >> shift) * (1 if v > 0 else -1) for b in list_ for v in b[1:]]
            old, new = level(before, high), level(after, low)
            assert old == [half(v) for v in new]
        yield planes - low, len(before), old, new, jpeg[data:end], table


def from_libjpeg(width, height, planes, quality, picture):
    """How many planes are not those of the longest end runs."""
    different = 0
    for plane, blocks, old, new, bytes_, table in libjpeg_planes(width, height, planes, quality, picture):
        longest = of_01(plane, blocks, new, table)
        if not table:
            trip('DC planes of libjpeg', plane, blocks, new, bytes_)
        elif longest == given(bytes_):
            trip('AC planes of libjpeg', plane, blocks, new, bytes_, table)
        else:
            different += 1
            print(f'  plane {plane} of {blocks} blocks: libjpeg wrote {len(bytes_)} bytes, the longest end runs give (number, place) {longest[:2]}')
            group = named('AC planes of libjpeg that end a run early', plane, ', read, and written by the rules')
            assert by_rules(group, READ_AC, plane, blocks, 63 * blocks, old, *table, data=bytes_) == given(new)
            assert by_rules(group, WRITE_AC, plane, blocks, 100000, new, *table) == (refused(28, 0) if plane == 4 else longest)
    return different


def boxes(jpeg, kind):
    """The boxes of a type by instance, each from its packets in order."""
    at, found = 2, {}
    while True:
        marker, size = jpeg[at + 1], int.from_bytes(jpeg[at + 2:at + 4], 'big')
        if marker == 0xDA:
            return [b''.join(p for _, p in sorted(found[i])) for i in sorted(found)]
        if marker == 0xEB and jpeg[at + 4:at + 6] == b'JP' and jpeg[at + 16:at + 20] == kind:
            instance, number = struct.unpack('>HI', jpeg[at + 6:at + 12])
            found.setdefault(instance, []).append((number, jpeg[at + 20:at + 2 + size]))
        at += 2 + size


def refined(blocks, fines, planes):
    """Each box is a refinement scan, read over what the one before gave: plane, blocks, values, bytes, and the AC table."""
    dc, ac = [b[0] for b in blocks], [v for b in blocks for v in b[1:]]
    for fine in fines:
        start, data, end, first, high, low, table = scans(b'\xff\xd8' + fine + b'\xff\xd9')[0]
        plane, bytes_ = planes - low, (b'\xff\xd8' + fine)[data:end]
        if first == 0:
            dc = read_dc(plane, len(blocks), bytes_, dc, len(blocks))[3]
            yield plane, len(blocks), dc, bytes_, None
        else:
            ac = read_ac(plane, len(blocks), *table, bytes_, ac, 63 * len(blocks))[3]
            yield plane, len(blocks), ac, bytes_, table


def by_reference(width, height, planes, picture, options):
    """A grey picture as the ISO reference software writes it, with this many planes."""
    out = os.path.join(TMP, 'r.jpg')
    subprocess.run(['jpeg', *options, '-R', str(planes), '-h', grey('r.pgm', width, height, 8 + planes, picture), out], check=True, capture_output=True)
    return open(out, 'rb').read()


def from_reference(width, height, planes, noise, seed, residual):
    """FINE boxes of the ISO reference software, and RFIN boxes where there is a residual, written again to the very bytes."""
    options = ['-q', '80', '-Q', '85', '-r', '-rR', str(planes)] if residual else ['-q', '90']
    jpeg = by_reference(width, height, planes, wavy(8 + planes, noise, seed), options)
    for type_, base in [('FINE', jpeg)] + ([('RFIN', boxes(jpeg, b'RESI')[0])] if residual else []):
        for plane, blocks, new, bytes_, table in refined(coefficients(base), boxes(jpeg, type_.encode()), planes):
            trip(f'{"AC" if table else "DC"} planes of {type_} boxes', plane, blocks, new, bytes_, table)


ALL = bytes(16 * r for r in range(16)) + bytes(16 * r + 1 for r in range(16))
SIX = bytes([0, 0, 0, 0, 0, 32] + [0] * 10)
T = (bytes([0, 3] + [0] * 14), bytes([0x00, 0x01, 0xF0]))


def by_rules(group, kind, plane, blocks, room, values, counts=b'', codes=b'', data=b''):
    call = {
        READ_DC: lambda: read_dc(plane, blocks, data, values, room),
        WRITE_DC: lambda: write_dc(plane, blocks, values, room),
        READ_AC: lambda: read_ac(plane, blocks, counts, codes, data, values, room),
        WRITE_AC: lambda: write_ac(plane, blocks, counts, codes, values, room),
    }[kind]
    answer = call()
    record(group, kind, plane, blocks, room, values, answer, counts, codes, data)
    return answer


def some_values(rnd, count, level, density, dc=False):
    top = 1 << 11 + level
    pick = lambda: rnd.choice([-3, -2, -1, 1, 2, 3]) if rnd.random() < 0.7 else rnd.randint(-top + (0 if dc else 1), top - 1)
    return [pick() if rnd.random() < density else 0 for _ in range(count)]


def counts_and_runs(rnd):
    def trips(plane, blocks, dc, ac):
        trip('DC planes of 0 to 1024 blocks', plane, blocks, dc, of_01(plane, blocks, dc)[3])
        trip('AC planes of 0 to 1024 blocks', plane, blocks, ac, of_01(plane, blocks, ac, (SIX, ALL))[3], (SIX, ALL))

    for blocks in (0, 1, 2, 63, 1023, 1024):
        for plane in (1, 4):
            dc = some_values(rnd, blocks, plane, 0.5, dc=True)
            ac = some_values(rnd, 63 * blocks, plane, 0.02 if blocks < 100 else 0.001)
            trips(plane, blocks, dc, ac)
        # the third plane has what the fourth refines
        trips(3, blocks, [v // 2 for v in dc], [half(v) for v in ac])
    for run in (1, 2, 3, 4, 7, 8, 15, 16, 31, 32, 63, 64, 127, 128, 255, 256, 511, 512, 1023):
        values = [1] + [0] * (63 * run + 62)
        trip('end runs of 1 to 1023 blocks', 1, run + 1, values, write_ac(1, run + 1, SIX, ALL, values, 10 ** 6)[3], (SIX, ALL))
    for zeros in (14, 15, 16, 17, 30, 31, 32, 33, 47, 48, 49, 61, 62):
        for kept in (0, 1):
            values = [0] * zeros + [-1] + [0] * (62 - zeros)
            if kept and zeros > 20:
                values[5] = 6
                values[20] = -5
            trip('zeros before a new value', 2, 1, values, write_ac(2, 1, SIX, ALL, values, 10 ** 6)[3], (SIX, ALL))


def refusals(rnd):
    zeros = [0] * 63
    for plane in (0, 1, 3, 4, 5):
        for blocks, length in ((1, 63), (1, 62), (1024, 63), (1025, 63)):
            by_rules('counts and planes out of range, lists of another length', READ_AC, plane, blocks, 63, [0] * length, *T, data=b'\x67')
            by_rules('counts and planes out of range, lists of another length', WRITE_AC, plane, blocks, 63, [0] * length, *T)
            by_rules('counts and planes out of range, lists of another length', READ_DC, plane, blocks, 63, [0] * (length // 62), data=b'\x67')
            by_rules('counts and planes out of range, lists of another length', WRITE_DC, plane, blocks, 63, [0] * (length // 62))
    bad_tables = [(b'', b''), (bytes(15), b'\0'), (bytes(17), b''), (bytes(16), b''), (bytes([1] + [0] * 15), b''), (bytes([2] + [0] * 15), b'\0\1'),
                  (bytes([0, 2] + [0] * 14), b'\0\0'), (bytes([0, 3] + [0] * 14), b'\0\1'), (bytes([1] * 15 + [2]), bytes(range(17))), (bytes([1] * 16), bytes(range(16))),
                  (bytes([0] * 8 + [255] + [0] * 7), bytes(range(255))), (bytes([0] * 15 + [255]), bytes(range(255)))]
    for table in bad_tables:
        by_rules('tables', READ_AC, 1, 1, 63, zeros, *table, data=b'\x67')
        by_rules('tables', WRITE_AC, 1, 1, 63, zeros, *table)
    for level in range(1, 5):
        for v in ((1 << 10 + level) - 1, 1 << 10 + level, -(1 << 10 + level), -(1 << 10 + level) - 1):
            for at in (0, 62):
                values = zeros[:at] + [v] + zeros[at + 1:]
                by_rules('values at the ends of their ranges', READ_AC, level, 1, 63, values, *T, data=b'\x43')
                by_rules('values at the ends of their ranges', READ_DC, level, 63, 63, values, data=b'\x43')
                by_rules('values at the ends of their ranges', WRITE_AC, level - 1, 1, 63, values, *T)
                by_rules('values at the ends of their ranges', WRITE_DC, max(1, level - 1), 63, 63, values)
    for room in (0, 62, 63):
        by_rules('room', READ_AC, 1, 1, room, zeros, *T, data=b'\x3f')
        by_rules('room', READ_DC, 1, 63, room, zeros, data=b'\x3f' * 8)
    for values in ([1] * 8, [1] * 16, [0] * 9, [1] * 7):
        for room in range(6):
            by_rules('room', WRITE_DC, 1, len(values), room, values)
    for room in range(3):
        by_rules('room', WRITE_AC, 1, 1, room, [1] * 9 + [0] * 54, *T)
    for missing in (0x00, 0x01, 0xF0, 0x31, 0x50):
        codes = bytes(c for c in ALL if c != missing)
        table = (bytes([0, 0, 0, 0, 0, 31] + [0] * 10), codes)
        for blocks, values in ((1, [1] + [0] * 62), (1, [0] * 3 + [1] + [0] * 59), (1, [0] * 20 + [1] + [0] * 42), (40, [0] * 63 * 40)):
            by_rules('a code that the table lacks', WRITE_AC, 1, blocks, 100, values, *table)
    for blocks in (1, 2, 9):
        for data in (b'', b'\xff', b'\xff\x01', b'\xff\x00', b'\xff\x00\xff', b'\xff\x00\xff\xff', b'\xbf', b'\xbf\xff', b'\xbf\xff\x01', b'\x3f\xff\x00', b'\x00'):
            by_rules('data that end early or late', READ_DC, 1, blocks, blocks, [3] * blocks, data=data)
            by_rules('data that end early or late', READ_AC, 1, blocks, 63 * blocks, zeros * blocks, *T, data=data)
            by_rules('data that end early or late', READ_AC, 1, blocks, 63 * blocks, [3] * 63 * blocks, *T, data=data)
    by_rules('data that end early or late', READ_DC, 1, 0, 0, [], data=b'\xff')
    by_rules('data that end early or late', READ_AC, 1, 0, 0, [], *T, data=b'\x00')
    odd = (SIX, bytes([0x00, 0x01, 0x02, 0x13, 0xF1, 0xFF, 0xE0]) + bytes(range(0x80, 0x99)))
    for _ in range(150):
        blocks = rnd.choice([1, 2, 3, 20])
        values = [half(v) for v in some_values(rnd, 63 * blocks, 2, rnd.choice([0, 0.1, 0.8]))]
        data = bytes(rnd.choice([0, 1, 0x55, 0xFF, rnd.randrange(256)]) for _ in range(rnd.choice([1, 3, 8, 40])))
        by_rules('random data', READ_AC, 2, blocks, 63 * blocks, values, *rnd.choice([T, odd, (SIX, ALL)]), data=data)
    for _ in range(150):
        blocks = rnd.choice([1, 2, 5])
        values = some_values(rnd, 63 * blocks, 3, rnd.choice([0.02, 0.2, 0.9]))
        data = bytearray(write_ac(3, blocks, SIX, ALL, values, 10 ** 6)[3])
        if rnd.random() < 0.5:
            data = data[:rnd.randrange(len(data) + 1)]
        for _ in range(rnd.choice([0, 1, 1, 2])):
            if data:
                data[rnd.randrange(len(data))] ^= 1 << rnd.randrange(8)
        by_rules('damaged data', READ_AC, 3, blocks, 63 * blocks, [half(v) for v in values], SIX, ALL, bytes(data))
    for _ in range(60):
        blocks = rnd.choice([1, 2, 5])
        by_rules('AC planes written with little room or few codes', WRITE_AC, 3, blocks, rnd.choice([3, 50, 500]), some_values(rnd, 63 * blocks, 3, rnd.choice([0.02, 0.2, 0.9])), *rnd.choice([T, (SIX, ALL)]))


# ---- second places

def of_two_bits(*codes):
    """A table whose codes are 00, 01 and 10."""
    return bytes([0, len(codes)] + [0] * 14), bytes(codes)


FAR = [0] * 48      # what three F0 step over
CLOSED = [          # a table, the bits of a block, its values, and the number that its last bit is refused with
    (14, T, '1' * 16, [0] * 63),
    (15, of_two_bits(0x00, 0x02, 0xF0), '01', [0] * 63),
    (16, of_two_bits(0x00, 0xF0, 0x01), '01' * 4, [0] * 63),                             # behind F0's code
    (16, of_two_bits(0x00, 0xF0, 0x01), '01' * 4 + '111', FAR + [0] * 12 + [3] * 3),      # behind corrections
    (16, of_two_bits(0x00, 0xF0, 0x01), '01' * 4 + '11', FAR + [3] * 2 + [0] * 13),       # behind corrections, with zeros left
    (16, of_two_bits(0x00, 0xF0, 0xF1), '01' * 3 + '10' + '1', [0] * 63),                # behind the sign
    (16, of_two_bits(0x00, 0xF0, 0xE1), '01' * 3 + '10' + '11', FAR + [0] * 14 + [3]),    # behind the sign and a correction
    (17, of_two_bits(0x00, 0x10, 0xF0), '01' + '1', [0] * 63),                           # with r 0 a run is one block, which is never too long
    (17, of_two_bits(0x00, 0x30, 0xF0), '01' + '111', [0] * 63),
    (17, of_two_bits(0x00, 0x30, 0xF0), '01' + '001', [0] * 63 * 8),                     # nine blocks where eight are left
]


def behind_ones(n, tail, values):
    """A block whose end run corrects n values, each by a one, and behind it the blocks of these bits. The bits, and the values."""
    return [0, 0] + [1] * n + [int(b) for b in tail], [3] * n + [0] * (63 - n) + values


def last_bits():
    """Each refusal 14 to 17 at once, and behind ones until its last bit stood at each place of a byte: behind FF 00, and in an FF whose 00 follows. Its byte is counted from the bits."""
    for number, table, tail, values in CLOSED:
        in_ff = 0
        for n in (0, *range(14, 22)):
            bits, all_ = behind_ones(n, tail, values)
            whole = (len(bits) - 1) // 8
            second = whole + sum(all(bits[8 * i:8 * i + 8]) for i in range(whole))
            blocks, data = len(all_) // 63, pack(bits)
            answer = by_rules(f'second places: {number} at each place of a byte', READ_AC, 1, blocks, len(all_), all_, *table, data=data)
            assert answer == refused(number, 1, second)
            in_ff += data[second] == 0xFF
        assert in_ff


def cut_or_broken():
    """The same cut at each byte, and with another byte for the 00 behind each FF."""
    for number, table, tail, values in CLOSED:
        bits, all_ = behind_ones(22, tail, values)
        blocks, data = len(all_) // 63, pack(bits)
        for n in range(len(data)):
            answer = by_rules('second places: 12 where data are cut at each byte', READ_AC, 1, blocks, len(all_), all_, *table, data=data[:n])
            assert answer[0] == 12 and answer[2] == n
        for i in (i for i, byte in enumerate(data) if byte == 0xFF):
            broken = data[:i + 1] + bytes([(1, 0xD9, 0xFF)[i % 3]]) + data[i + 2:]
            answer = by_rules('second places: 13 at each FF', READ_AC, 1, blocks, len(all_), all_, *table, data=broken)
            assert answer[0] == 13 and answer[2] == i


def by_hand():
    """Data that end early or break, each with number, place and second place."""
    for blocks, data, told in (
            (1, b'', (12, 0, 0)), (9, b'\x3f', (12, 8, 1)), (1, b'\xff', (12, 0, 1)), (9, b'\x3f\xff', (12, 8, 2)), (9, b'\xff\x00', (12, 8, 2)),
            (9, b'\xff\x00\xff', (12, 8, 3)), (17, b'\xff\x00\xff\x00', (12, 16, 4)), (17, b'\xff\x00\x3f\xff', (12, 16, 4)), (1, b'\xff\x01', (13, 0, 0)),
            (1, b'\xff\xff\x00', (13, 0, 0)), (9, b'\x3f\xff\x01', (13, 8, 1)), (9, b'\xff\x00\xff\xd9', (13, 8, 2)), (17, b'\xff\x00\x3f\xff\x01\x00', (13, 16, 3)),
            (1, b'\x3f\xff\x01', (18, 1, 0)), (1, b'\xff\x00\xff', (18, 2, 0))):
        assert by_rules('second places: DC planes', READ_DC, 1, blocks, blocks, [3] * blocks, data=data)[:3] == told
    zeros, threes, run = [0] * 63, [3] * 63, of_two_bits(0xF0, 0x30, 0x01)
    for table, data, values, told in (
            (T, b'', zeros, (12, 0, 0)), (T, b'\xff', zeros, (12, 0, 1)), (T, b'\x3f', threes, (12, 0, 1)), (T, b'\x3f\xff', threes, (12, 0, 2)),
            (T, b'\xff\x01', zeros, (13, 0, 0)), (T, b'\x3f\xff\x01', threes, (13, 0, 1)), (T, b'\x3f\xff\x00\xff\xd9', threes, (13, 0, 3)),
            # the sign, and e, stand in the byte that is missing or broken
            (T, b'\xa9', zeros, (12, 0, 1)), (T, b'\xa9\xff', zeros, (12, 0, 2)), (T, b'\xa9\xff\x01', zeros, (13, 0, 1)),
            (run, b'\x01', zeros, (12, 0, 1)), (run, b'\x01\xff', zeros, (12, 0, 2)), (run, b'\x01\xff\x01', zeros, (13, 0, 1)), (run, b'\x01\xff\x00', zeros, (17, 0, 1)),
            (T, b'\xff\x00\xff\x00', zeros, (14, 0, 2)), (T, b'\x3f\xff\x01', zeros, (18, 1, 0))):
        assert by_rules('second places: AC planes', READ_AC, 1, 1, 63, values, *table, data=data)[:3] == told


def second_places():
    by_hand()
    last_bits()
    cut_or_broken()


# ---- level 4

def level_four():
    """The same calls on planes 3, 4 and 5, worked out by hand: what plane 3 answers, and the number of plane 4, which stands before all but 20; plane 5 is refused with 20."""
    group = 'level 4 is not written'
    dc, ac, zeros = [5, -1, 0, -4], [1, 3, -1, -6] + [0] * 59, [0] * 63
    dc_bytes = b'\xcf'          # 1 1 0 0
    ac_bytes = b'\x6a\x3f'      # 01, sign 1; 01, sign 0, correction 1; 00, correction 0
    bad, few = (T[0], T[1][:2]), of_two_bits(0x00, 0xF0)
    for blocks, values, room, third, fourth in (
            (4, dc, 3, given(dc_bytes), 28), (0, [], 3, given(b''), 28), (1024, [0] * 1024, 128, given(bytes(128)), 28),
            (4, dc + [0], 3, refused(21, 0), 28), (4, dc[:3], 3, refused(21, 0), 28),
            (4, dc[:3] + [1 << 14], 3, refused(11, 3), 28), (4, dc[:3] + [1 << 15], 3, refused(11, 3), 28), (4, dc, 0, refused(9, 1), 28), (4, [1 << 15], 0, refused(21, 0), 28),
            (1025, [0] * 1025, 129, refused(20, 0), 20), (1025, dc, 3, refused(20, 0), 20)):
        for plane, told in ((3, third), (4, refused(fourth, 0)), (5, refused(20, 0))):
            assert by_rules(group, WRITE_DC, plane, blocks, room, values) == told
    for blocks, table, values, room, third, fourth in (
            (1, T, ac, 3, given(ac_bytes), 28), (0, T, [], 3, given(b''), 28),
            (1024, (SIX, ALL), zeros * 1024, 3, given(b'\x28\x00'), 28),                 # A0 is 001010, and ten bits of 0
            (1, T, ac + [0], 3, refused(21, 0), 28), (1, T, ac[:62], 3, refused(21, 0), 28), (1, bad, ac, 3, refused(10, 0), 28),
            (1, T, ac[:62] + [1 << 14], 3, refused(11, 62), 28), (1, T, ac[:62] + [-(1 << 15)], 3, refused(11, 62), 28),
            (1, few, ac, 3, refused(19, 0x01), 28), (1, T, ac, 1, refused(9, 2), 28), (1, bad, [1 << 15], 0, refused(21, 0), 28),
            (1025, (SIX, ALL), zeros * 1025, 3, refused(20, 0), 20), (1025, T, ac, 3, refused(20, 0), 20)):
        for plane, told in ((3, third), (4, refused(fourth, 0)), (5, refused(20, 0))):
            assert by_rules(group, WRITE_AC, plane, blocks, room, values, *table) == told
    for plane in (3, 4):
        assert by_rules(group, READ_DC, plane, 4, 4, [2, -1, 0, -2], data=dc_bytes) == given(dc)
        assert by_rules(group, READ_AC, plane, 1, 63, [0, 1, 0, -3] + [0] * 59, *T, data=ac_bytes) == given(ac)


def main():
    built()
    rnd = random.Random(18477)
    different = 0
    stripes = lambda x, y: 255 * (x % 2)
    for width, height, planes, quality, f in ((8, 8, 1, 90, wavy(8, 20, 1)), (16, 8, 2, 90, wavy(8, 20, 2)), (72, 56, 3, 92, wavy(8, 8, 3)), (64, 48, 4, 95, wavy(8, 12, 4)),
                                              (256, 256, 2, 60, wavy(8, 1, 5)), (96, 96, 1, 97, wavy(8, 30, 6)), (136, 136, 2, 90, stripes)):
        different += from_libjpeg(width, height, planes, quality, f)
    for planes in range(1, 5):
        from_reference(40, 32, planes, 8, planes, False)
        from_reference(40, 32, planes, 8, planes, True)
    counts_and_runs(rnd)
    refusals(rnd)
    second_places()
    level_four()
    write(records, sys.argv[1], sys.argv[2])
    print(f'libjpeg differs in {different} planes')


if __name__ == '__main__':
    main()
