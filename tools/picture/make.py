#!/usr/bin/env python3
"""make.py NAME..: makes pictures/NAME.jpg and pictures/NAME.jpg.base anew, written by the ISO reference software of JPEG XT (`jpeg`, Debian's libjpeg-tools); the base coefficients by libjpeg (gcc, libjpeg62-turbo-dev).
finish: four lanes in the dusk, a chest in each, grey, 12 bits, four refinement planes. grass: the infield behind a white line, in colour, 10 bits, two planes."""
import math, os, random, struct, subprocess, sys, tempfile

ROOT = os.path.dirname(os.path.dirname(os.path.dirname(os.path.abspath(__file__))))
WIDTH, HEIGHT = 96, 64
rnd = random.Random(4)


def finish(x, y):
    lane, inside = divmod(y, 16)
    light = 260 + 90 * lane + 120 * math.sin(x / 17)
    if inside == 0 or x == 80:
        light += 1500
    chest, height = 20 + 17 * lane, 8
    far = ((x - chest) / 7) ** 2 + ((inside - height) / 5) ** 2
    if far < 1:
        light += 900 * (1 - far) + (500 if abs(inside - height) < 2 and abs(x - chest) < 3 else 0)
    return [light + rnd.uniform(-40, 40)]


def grass(x, y):
    blade = 60 * math.sin(x / 3 + y / 11) + rnd.uniform(-25, 25)
    if y < 40:
        return 250 + blade, 520 + 3 * y + blade, 120 + blade
    if y < 44:
        return 900, 905, 910
    return 560 + blade / 4, 250 + blade / 4, 170 + blade / 4


PICTURES = {'finish': (finish, 4095, '4'), 'grass': (grass, 1023, '2')}


def main():
    folder = tempfile.mkdtemp()
    source, tool = os.path.join(folder, 'source'), os.path.join(folder, 'coefficients')
    subprocess.run(['gcc', '-O1', '-o', tool, os.path.join(ROOT, 'tools', 'vectors', 'coefficients.c'), '-ljpeg'], check=True)
    for name in sys.argv[1:]:
        of, top, planes = PICTURES[name]
        pixels = [[max(0, min(top, int(v))) for v in of(x, y)] for y in range(HEIGHT) for x in range(WIDTH)]
        out = os.path.join(ROOT, 'pictures', name + '.jpg')
        with open(source, 'wb') as f:
            f.write(b'P%d\n%d %d\n%d\n' % (5 if len(pixels[0]) == 1 else 6, WIDTH, HEIGHT, top) + b''.join(struct.pack('>H', v) for pixel in pixels for v in pixel))
        subprocess.run(['jpeg', '-q', '90', '-R', planes, '-h', source, out], check=True, capture_output=True)
        with open(out + '.base', 'wb') as f:
            f.write(subprocess.run([tool, out], capture_output=True, check=True).stdout)


main()
