#!/usr/bin/env python3
"""trial.py N [colour]: N pictures made at random, grey or in colour (waves, noise, white spots; 9 to 16 bits; planes, residual and qualities at random), written by the ISO reference software, read through by
read.py: how many of the decoder's samples its arithmetic, as rebuilt in read.py, gives on the values that the calls handed out, and how far the calls' own samples are from them.
Needs `jpeg` (Debian's libjpeg-tools), gcc, libjpeg62-turbo-dev and the library (library.py). Run at the repository's root."""
import math, os, random, re, struct, subprocess, sys, tempfile

HERE = os.path.dirname(os.path.abspath(__file__))
TMP = tempfile.mkdtemp()
SOURCE, PICTURE = os.path.join(TMP, 'a.pnm'), os.path.join(TMP, 'a.jpg')
rnd = random.Random(18477)


def make(depth, colour):
    top, unit = (1 << depth) - 1, 1 << depth - 8
    f = rnd.choice((
        lambda x, y: unit * (128 + 50 * math.sin(x / 7) + 40 * math.cos(y / 5) + rnd.uniform(-8, 8)),
        lambda x, y: rnd.uniform(0, top),
        lambda x, y: top if rnd.random() < 0.03 else 0))
    # in colour the waves of a component run apart from its neighbour's
    samples = [max(0, min(top, int(f(x + 9 * k, y + 5 * k)))) for y in range(32) for x in range(40) for k in range(3 if colour else 1)]
    with open(SOURCE, 'wb') as out:
        out.write(b'P%d\n40 32\n%d\n' % (6 if colour else 5, top) + b''.join(struct.pack('>H', s) for s in samples))


def options(depth):
    planes, more = rnd.randint(0, min(4, depth - 8)), rnd.randint(0, 4)
    words = ['-q', str(rnd.choice((3, 30, 60, 80, 90, 97))), '-h'] + (['-R', str(planes)] if planes else [])
    if planes and rnd.random() < 0.25:
        return words
    return words + ['-Q', str(rnd.choice((30, 60, 85, 95))), '-r'] + (['-rR', str(more)] if more else [])


def main():
    colour, sums = 'colour' in sys.argv[2:], {}
    for _ in range(int(sys.argv[1])):
        depth = rnd.randint(9, 16)
        words = options(depth)
        make(depth, colour)
        subprocess.run(['jpeg'] + words + [SOURCE, PICTURE], capture_output=True, check=True)
        said = subprocess.run([sys.executable, os.path.join(HERE, 'read.py'), PICTURE], capture_output=True, text=True).stdout
        found = re.search(r'decoder: (\d+) the same, .* at most (\d+)\n.* gives (\d+) of its (\d+) samples', said)
        if not found or found.group(3) != found.group(4):
            print(f'{depth} bits, jpeg {" ".join(words)}: {found.group(0) if found else said[-200:]}')
        if found:
            same, far, rebuilt, all_ = map(int, found.groups())
            kind = 'with a residual' if '-r' in words else 'without a residual'
            so_far = sums.get(kind, (0, 0, 0, 0, 0))
            sums[kind] = so_far[0] + 1, so_far[1] + rebuilt, so_far[2] + all_, so_far[3] + same, max(so_far[4], far / (1 << depth))
    for kind, (pictures, rebuilt, all_, same, far) in sorted(sums.items()):
        print(f'{pictures} pictures {kind}: {rebuilt} of {all_} samples; of ours {same} are the same, none is more than {far:.4f} of the range away')


main()
