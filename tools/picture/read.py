#!/usr/bin/env python3
"""read.py PICTURE [OUT]: one JPEG XT picture read through, grey or in colour without subsampling: boxes, refinement planes, transform, merge with its TONE table (OUT is a PGM or PPM file); compared with
the reference decoder (`jpeg` of Debian's libjpeg-tools) where that is there, and with that decoder's arithmetic, rebuilt here by trial, on the same values. The base coefficients are lent numbers to the reader: they stand in
PICTURE.base, or come from libjpeg (tools/vectors/coefficients.c: gcc and libjpeg62-turbo-dev). Needs the library first (library.py)."""
import os, shutil, subprocess, sys, tempfile
sys.path.insert(0, os.path.dirname(os.path.abspath(__file__)))
from images import write_pnm
from library import *

TMP = tempfile.mkdtemp()
WALK = sorted(((v, u) for v in range(8) for u in range(8)), key=lambda p: (sum(p), p[sum(p) % 2 == 0]))


def segments(jpeg):
    at = 2
    while jpeg[at + 1] != 0xD9:
        marker, length = jpeg[at + 1], int.from_bytes(jpeg[at + 2:at + 4], 'big')
        yield marker, jpeg[at + 4:at + 2 + length], at + 2 + length
        if marker == 0xDA:
            return
        at += 2 + length


def base_of(path, jpeg):
    """Width, height, and for each component its number, its quantisers and its level 0 blocks, of a codestream; `path` names its file."""
    tables = {}
    for marker, body, _ in segments(jpeg):
        while marker == 0xDB and body:
            tables[body[0]], body = list(body[1:65]), body[65:]
        if marker in (0xC0, 0xC1, 0xC2):
            height, width = int.from_bytes(body[1:3], 'big'), int.from_bytes(body[3:5], 'big')
            frame = [body[i:i + 3] for i in range(6, len(body), 3)]
    if len({sampling for _, sampling, _ in frame}) > 1:
        raise SystemExit('colour is subsampled')
    if os.path.exists(path + '.base'):
        text = open(path + '.base').read()
    else:
        tool = os.path.join(TMP, 'coefficients')
        subprocess.run(['gcc', '-O1', '-o', tool, os.path.join(ROOT, 'tools', 'vectors', 'coefficients.c'), '-ljpeg'], check=True)
        text = subprocess.run([tool, path], capture_output=True, check=True).stdout.decode()
    blocks = [list(map(int, line.split())) for line in text.split('\n')[1:] if line]
    n = len(blocks) // len(frame)
    return width, height, [(number, tables[table], blocks[n * k:n * k + n]) for k, (number, _, table) in enumerate(frame)]


def scan_of(fine):
    """A FINE box is a refinement scan: an optional code table, the scan's head, its data. (components, whether DC, low bit, table, data)"""
    table = (b'', b'')
    for marker, body, end in segments(b'\xff\xd8' + fine + b'\xff\xd9'):
        if marker == 0xC4:
            n = sum(body[1:17])
            table = (body[1:17], body[17:17 + n])
        if marker == 0xDA:
            return body[1:-3:2], body[-3] == 0, body[-1] & 15, table, fine[end - 2:]


def refuse(what, answer):
    look = f', look at byte {answer.second} of its data' if 12 <= answer.number <= 17 else ''
    raise SystemExit(f'{what}: answer {answer.number} {answer.place}{look}')


def all_boxes(file, kind):
    """The boxes of a type, instance by instance from 0."""
    found = []
    while True:
        answer = box(file, kind, len(found))
        if answer.number == 4:
            return found
        if answer.number:
            refuse(f'{kind.decode()} {len(found)}', answer)
        found.append(answer.out)


def output_bits(file):
    """8 + Rb, from the output conversion box in the merging specification box."""
    spec, at = box(file, b'SPEC', 1).out, 0
    while at < len(spec):
        if spec[at + 4:at + 8] == b'OCON':
            return 8 + (spec[at + 8] >> 4)
        at += max(8, int.from_bytes(spec[at:at + 4], 'big'))
    return 8


def decoder_samples(blocks, quantisers, planes):
    """The reference decoder's transform, rebuilt by trial: cosines in 512ths, rounded behind the rows and again behind the columns, to samples in sixteenths."""
    def line(s, x):
        total = 512 * s[0]
        for u in range(1, 8):
            m = min((2 * x + 1) * u % 32, 32 - (2 * x + 1) * u % 32)
            total += s[u] * (0, 710, 669, 602, 512, 402, 277, 141)[m if m < 8 else 16 - m] * (1 if m < 8 else -1)
        return total
    out = []
    for block in blocks:
        s = [[0] * 8 for _ in range(8)]
        for (v, u), value, q in zip(WALK, block, quantisers):
            s[v][u] = 16 * value * q
        s[0][0] += 1 << 14 + planes
        rows = [[line(row, x) + 256 >> 9 for x in range(8)] for row in s]
        out += [line([row[x] for row in rows], y) + 2048 >> 12 for y in range(8) for x in range(8)]
    return out


def decoder_colours(bits, planes, places):
    """The reference decoder's transform, rebuilt by trial, of the three planes of samples of so many bits, in sixteenths: weights in 8192ths, the centre half of their range, one rounding, by so many binary places more."""
    centre, weights = 1 << 3 + bits, ((0, 11485), (-2819, -5850), (14516, 0))
    return [[8192 * y + l * (cb - centre) + m * (cr - centre) + (1 << 12 + places) >> 13 + places << places for y, cb, cr in zip(*planes)] for l, m in weights]


def decoder_merge(rb, rh, rr, base, table, residual):
    """The reference decoder's merge, rebuilt by trial, of planes of samples in sixteenths: the base is rounded before its curve; the residual is clipped to its range, before its transform and again behind it, and keeps its sixteenths."""
    clip = lambda v, bits: max(0, min(v, (1 << bits) - 1))
    top, full = (1 << 8 + rh) - 1, (1 << 8 + rb) - 1
    scaled = lambda r: r << rb - rr if rb >= rr else r + (1 << rr - rb - 1) >> rr - rb
    residual = [[scaled(clip(r, 12 + rr)) for r in plane] for plane in residual]
    if len(base) == 3:
        base, coloured = decoder_colours(8 + rh, base, 4), decoder_colours(8 + rb, residual, 0) if residual else []
        residual = [[clip(r, 12 + rb) for r in plane] for plane in coloured]
    out = []
    for plane, added in zip(base, residual or [[1 << 11 + rb] * len(plane) for plane in base]):
        whole = [clip(b + 8 >> 4, 8 + rh) for b in plane]
        curved = [16 * (table[b] if table else (2 * b * full + top) // (2 * top)) for b in whole]
        out.append([clip(t + r - (1 << 11 + rb) + 8 >> 4, 8 + rb) for t, r in zip(curved, added)])
    return out


def levels_of(name, path, codestream, fines, say):
    """Width, height, and for each component of a codestream its quantisers and its blocks after 0, 1, .. of the planes that its refinement boxes hold."""
    width, height, components = base_of(path, codestream)
    scans = [scan_of(fine) for fine in fines]
    planes, n = sum(is_dc for _, is_dc, *_ in scans), len(components[0][2])
    # a DC scan has a bit of each component's block in turn, an AC scan is of one component; a plane's values stand behind those of the planes before
    dc = [[block[0] for blocks in zip(*(blocks for _, _, blocks in components)) for block in blocks]]
    ac = {number: [[v for block in blocks for v in block[1:]]] for number, _, blocks in components}
    for numbers, is_dc, low, table, data in scans:
        plane, values = planes - low, dc if is_dc else ac[numbers[0]]
        answer = read_dc(plane, len(dc[0]), data, values[-1]) if is_dc else read_ac(plane, n, *table, data, values[-1])
        if answer.number:
            refuse(f'{name}, plane {plane}', answer)
        values.append(answer.out)
        say(f'{name}, plane {plane} {"DC" if is_dc else "AC"}: {len(data)} bytes, {answer.place} values')
    if any(len(values) <= planes for values in ac.values()):
        raise SystemExit(f'{name}: a component lacks an AC plane')
    blocks = lambda k, number, j: [[dc[j][len(components) * b + k]] + ac[number][j][63 * b:63 * b + 63] for b in range(n)]
    return width, height, [(quantisers, [blocks(k, number, j) for j in range(planes + 1)]) for k, (number, quantisers, _) in enumerate(components)]


def rows(width, height, samples):
    """The samples of a picture row by row, out of those of its blocks; what pads the blocks at its right and its foot is left out."""
    across = (width + 7) // 8
    return [samples[64 * ((y // 8) * across + x // 8) + 8 * (y % 8) + x % 8] for y in range(height) for x in range(width)]


def transformed(name, refinement, blocks, quantisers):
    """The samples of a component, block by block."""
    answer = transform(refinement, len(blocks), [v for block in blocks for v in block], quantisers)
    if answer.number:
        refuse(f'{name}, transform', answer)
    return answer.out


def samples_of(name, path, codestream, fines, say):
    """Width, height, how many planes there are, and the samples row by row of a codestream's components and their refinement boxes: ours, and the decoder's in sixteenths."""
    width, height, components = levels_of(name, path, codestream, fines, say)
    planes = len(components[0][1]) - 1
    ours = [rows(width, height, transformed(name, planes, levels[-1], quantisers)) for quantisers, levels in components]
    theirs = [rows(width, height, decoder_samples(levels[-1], quantisers, planes)) for quantisers, levels in components]
    return width, height, planes, ours, theirs


def pixel_by_pixel(planes):
    return [v for pixel in zip(*planes) for v in pixel]


def merged(rb, rh, rr, base, table, residual):
    """How many samples were merged, and the component planes of them."""
    answer = merge(rb, rh, rr, len(base), sum(base, []), table, sum(residual, []))
    if answer.number:
        refuse('merge', answer)
    n = len(base[0])
    return answer.place, [answer.out[n * k:n * k + n] for k in range(len(base))]


def read(path, say=print):
    """Width, components, the largest possible sample, the samples pixel by pixel, and what the decoder's arithmetic, as rebuilt here, makes of the same values."""
    file = open(path, 'rb').read()
    say(listing(file).rstrip())
    width, height, planes, base, base16 = samples_of('base', path, file, all_boxes(file, b'FINE'), say)
    tone = box(file, b'TONE', 1).out
    table = [int.from_bytes(tone[i:i + 2], 'big') for i in range(1, len(tone) - 1, 2)]
    codestream = box(file, b'RESI', 1)
    residual, residual16, rr = [], [], 0
    if codestream.number == 0:
        inner = os.path.join(TMP, 'residual.jpg')
        with open(inner, 'wb') as f:
            f.write(codestream.out)
        _, _, rr, residual, residual16 = samples_of('residual', inner, codestream.out, all_boxes(file, b'RFIN'), say)
    bits = output_bits(file)
    count, result = merged(bits - 8, planes, rr, base, table, residual)
    samples = pixel_by_pixel(result)
    say(f'merged: {count} samples of {bits} bits, from {min(samples)} to {max(samples)}')
    as_decoder = decoder_merge(bits - 8, planes, rr, base16, table, residual16)
    return width, len(base), (1 << bits) - 1, samples, pixel_by_pixel(as_decoder)


def reference(path):
    """What the reference decoder shows, as write_pnm takes it: width, components, the largest possible sample and the samples pixel by pixel; or nothing where it is not there or says no."""
    if not shutil.which('jpeg'):
        return None
    out = os.path.join(TMP, 'reference.pgm')
    if os.path.exists(out):
        os.remove(out)
    said = subprocess.run(['jpeg', path, out], capture_output=True)
    if b'failed' in said.stdout + said.stderr or not os.path.exists(out) or os.path.getsize(out) == 0:
        return None
    kind, sides, top, data = open(out, 'rb').read().split(b'\n', 3)
    return int(sides.split()[0]), 1 if kind == b'P5' else 3, int(top), [int.from_bytes(data[i:i + 2], 'big') for i in range(0, len(data), 2)]


def main():
    width, components, top, samples, as_decoder = read(sys.argv[1])
    if len(sys.argv) > 2:
        write_pnm(sys.argv[2], width, components, top, samples)
    shown = reference(sys.argv[1])
    if shown is None:
        print('the reference decoder is not there (apt-get install libjpeg-tools)')
        return
    theirs = shown[3]
    far = [abs(a - b) for a, b in zip(samples, theirs)]
    classes = (('the same', 0, 0), ('1 away', 1, 1), ('2 to 8 away', 2, 8), ('more', 9, 1 << 16))
    print('beside the reference decoder: ' + ', '.join(f'{sum(low <= d <= high for d in far)} {name}' for name, low, high in classes) + f'; at most {max(far)}')
    print(f"the decoder's arithmetic, rebuilt here, on the same values gives {sum(a == b for a, b in zip(as_decoder, theirs))} of its {len(theirs)} samples")


if __name__ == '__main__':
    main()
