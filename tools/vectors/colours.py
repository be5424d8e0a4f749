#!/usr/bin/env python3
"""colours.py: colours as the ISO reference software turns them at Rh 0 to 4: writes colours.txt beside this file, a line 'Rh Y Cb Cr red green blue' for each. merge.py reads it and holds step 1 of the merge to it.

A picture of flat blocks, each of one colour at random, is written with every quantiser 1, Rh refinement planes and a base curve that leaves its numbers (`-gf`), and decoded. Where DC of all three components is a multiple of 8,
T.81's formula gives whole samples, 2^(7+Rh) + DC / 8, so that nothing but the base transform stands between them and what the decoder shows. The first 24 such colours of each picture are kept.
Needs `jpeg` (Debian's libjpeg-tools), gcc and libjpeg62-turbo-dev."""
import os, random, struct, subprocess, tempfile

HERE = os.path.dirname(os.path.abspath(__file__))
TMP = tempfile.mkdtemp()
SIDE, KEPT = 128, 24
rnd = random.Random(2)


def at(name):
    return os.path.join(TMP, name)


def coded(rh):
    """A picture of SIDE * SIDE flat blocks, written with Rh planes: its bytes, and the samples that the decoder shows, pixel by pixel."""
    top = (256 << rh) - 1
    colours = [[rnd.randint(0, top) for _ in range(3)] for _ in range(SIDE * SIDE)]
    pixel = lambda c: struct.pack('>3H', *c) if top > 255 else bytes(c)
    with open(at('a.ppm'), 'wb') as f:
        f.write(b'P6\n%d %d\n%d\n' % (8 * SIDE, 8 * SIDE, top))
        f.write(b''.join(b''.join(8 * pixel(c) for c in colours[y:y + SIDE]) * 8 for y in range(0, SIDE * SIDE, SIDE)))
    with open(at('curve'), 'w') as f:
        f.write(''.join(f'{i}\n' for i in range(top + 1)))
    words = ['-R', str(rh), '-gf', at('curve')] if rh else []
    subprocess.run(['jpeg', '-q', '100', '-qt', '1', '-h', *words, at('a.ppm'), at('a.jpg')], check=True, capture_output=True)
    subprocess.run(['jpeg', at('a.jpg'), at('b.ppm')], check=True, capture_output=True)
    head = open(at('b.ppm'), 'rb').read().split(b'\n', 3)
    assert head[2] == b'%d' % top
    return open(at('a.jpg'), 'rb').read(), [v[0] for v in struct.iter_unpack('>H' if rh else 'B', head[3])]


def dc_planes(jpeg):
    """The data of the DC scans of the refinement boxes (FINE), in file order, each box being one packet."""
    place = 2
    while jpeg[place + 1] != 0xDA:
        size = int.from_bytes(jpeg[place + 2:place + 4], 'big')
        segment = jpeg[place:place + 2 + size]
        if segment[1] == 0xEB and segment[16:22] == b'FINE\xff\xda':
            yield segment[34:].replace(b'\xff\x00', b'\xff')
        place += 2 + size


def dc_values(jpeg):
    """DC of each block, all three components, at level Rh: libjpeg's level 0 values, then a bit from each plane: Y, Cb, Cr of a block in turn."""
    lines = subprocess.run([at('coefficients'), at('a.jpg')], check=True, capture_output=True, text=True).stdout.split('\n')[1:-1]
    assert len(lines) == 3 * SIDE * SIDE and all(set(line.split()[1:]) == {'0'} for line in lines)
    dc = [[int(lines[k * SIDE * SIDE + b].split()[0]) for k in range(3)] for b in range(SIDE * SIDE)]
    for data in dc_planes(jpeg):
        for i in range(3 * SIDE * SIDE):
            dc[i // 3][i % 3] = 2 * dc[i // 3][i % 3] + (data[i // 8] >> 7 - i % 8 & 1)
    return dc


def shown(samples, block):
    """The colour that the decoder shows in all 64 pixels of a block."""
    y, x = divmod(block, SIDE)
    pixels = {tuple(samples[3 * p:3 * p + 3]) for r in range(8) for p in range((8 * y + r) * 8 * SIDE + 8 * x, (8 * y + r) * 8 * SIDE + 8 * x + 8)}
    assert len(pixels) == 1
    return pixels.pop()


def main():
    subprocess.run(['gcc', '-O1', '-o', at('coefficients'), os.path.join(HERE, 'coefficients.c'), '-ljpeg'], check=True)
    with open(os.path.join(HERE, 'colours.txt'), 'w') as f:
        for rh in range(5):
            jpeg, samples = coded(rh)
            whole = [(b, dc) for b, dc in enumerate(dc_values(jpeg)) if all(v % 8 == 0 for v in dc)]
            for b, dc in whole[:KEPT]:
                f.write(' '.join(map(str, [rh] + [(128 << rh) + v // 8 for v in dc] + list(shown(samples, b)))) + '\n')
            print(f'Rh {rh}: {min(KEPT, len(whole))} of {len(whole)} colours')


main()
