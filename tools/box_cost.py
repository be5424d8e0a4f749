#!/usr/bin/env python3
"""box_cost: how long crates/box_out/out/box_out takes on hostile files of 20-byte packets, at two sizes.

Each file holds n packets of LPTS, 1 with no payload, so that a walk is as long as a file of its size allows; the orders and
numbers are those that cost most. Prints seconds of CPU for each, and the answer. Run `rt run` in crates/box_out first."""
import random, resource, struct, subprocess, sys

def picture(numbers):
    head = b'\xff\xeb\x00\x12JP\x00\x01'
    return b'\xff\xd8' + b''.join(head + struct.pack('>II', q, 8) + b'LPTS' for q in numbers) + b'\xff\xda'

def apart(n):
    """n distinct numbers, all over 32 bits, in no order: none of 1..n need be there, none stands twice."""
    r = random.Random(1)
    seen = set()
    while len(seen) < n: seen.add(r.randrange(1 << 32))
    out = list(seen)
    r.shuffle(out)
    return out

def shuffled(n):
    out = list(range(1, n + 1))
    random.Random(2).shuffle(out)
    return out

CASES = [
    ('in order', lambda n: range(1, n + 1)),
    ('backwards', lambda n: range(n, 0, -1)),
    ('shuffled', shuffled),
    ('last missing', lambda n: [n + 1] + list(range(1, n))),
    ('all over 32 bits', apart),
    ('all over 32 bits, the largest twice', lambda n: apart(n - 1) + [max(apart(n - 1))]),
]

def seconds(file):
    before = resource.getrusage(resource.RUSAGE_CHILDREN).ru_utime
    p = subprocess.run(['crates/box_out/out/box_out', 'LPTS', '1'], input=file, capture_output=True)
    return resource.getrusage(resource.RUSAGE_CHILDREN).ru_utime - before, (p.stderr.decode().strip() or f'{len(p.stdout)} bytes')

for n in [int(a) for a in sys.argv[1:]] or [50000, 100000]:
    for name, numbers in CASES:
        file = picture(numbers(n))
        t, answer = seconds(file)
        print(f'{n} packets, {len(file)} bytes, {name}: {t:.2f} s, {answer}', flush=True)
