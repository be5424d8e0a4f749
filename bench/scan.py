#!/usr/bin/env python3
"""scan.py FOLDER: a progressive grey picture of 1,024 blocks with one AC refinement scan (cjpeg), as cut.jpg, whole.jpg and scan.bin for bench/libjpeg.c."""
import os, random, subprocess, sys

folder = sys.argv[1]
rnd = random.Random(7)
with open(os.path.join(folder, 's.pgm'), 'wb') as f:
    f.write(b'P5\n256 256\n255\n' + bytes(min(255, max(0, int(128 + 60 * ((x // 9 + y // 7) % 2) + rnd.gauss(0, 12)))) for y in range(256) for x in range(256)))
with open(os.path.join(folder, 's.txt'), 'w') as f:
    f.write('0: 0-0, 0, 0;\n0: 1-63, 0, 1;\n0: 1-63, 1, 0;\n')
subprocess.run(['cjpeg', '-quality', '90', '-grayscale', '-optimize', '-scans', os.path.join(folder, 's.txt'), '-outfile', os.path.join(folder, 's.jpg'), os.path.join(folder, 's.pgm')], check=True)
jpeg = open(os.path.join(folder, 's.jpg'), 'rb').read()
at, table, last = 2, None, None
while jpeg[at + 1] != 0xD9:
    size = int.from_bytes(jpeg[at + 2:at + 4], 'big')
    if jpeg[at + 1] == 0xC4:
        table = jpeg[at + 5:at + 2 + size]
    start, at = at, at + 2 + size
    if jpeg[start + 1] == 0xDA:
        end = at
        while not (jpeg[end] == 0xFF and jpeg[end + 1] != 0):
            end += 1
        last, at = (start, at, end), end
start, data, end = last
for name, body in (('cut.jpg', jpeg[:start] + b'\xff\xd9'), ('whole.jpg', jpeg[:end] + b'\xff\xd9'), ('scan.bin', table + jpeg[data:end])):
    with open(os.path.join(folder, name), 'wb') as f:
        f.write(body)
