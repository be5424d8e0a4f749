#!/usr/bin/env python3
"""box_check: random files with boxes of both forms, fill, strangers, shuffles, repeats, gaps, damage and cuts; what crates/box_out/out/box_out and
crates/listing/out/listing write is held to a second reading of the rules (docs/RULES.md, W and P), written here. Prints how often each number was met.
A form is how many bytes of the stated length are the head of the box: 8, the length is LBox; 16, LBox is 1 and the length stands in eight bytes behind the type.
Run `rt run` in crates/box_out and in crates/listing first.  box_check.py [FILES] [SEED]"""
import collections, platform, random, struct, subprocess, sys

# on a machine that is not x86-64 the programs run under Debian's qemu-user and libc6-amd64-cross
RUN = [] if platform.machine() == 'x86_64' else ['qemu-x86_64', '-L', '/usr/x86_64-linux-gnu']

def walk(d):
    """the packets (instance, number, (stated length, form), type, payload), or a number and a place"""
    if d[:2] != b'\xff\xd8': return None, (1, 0)
    at, met = 2, []
    while True:
        m = at
        while m < len(d) and d[m] == 0xff: m += 1
        if m == at or m == len(d): return None, (2, at)
        if d[m] == 0xda: return met, (0, 0)
        if d[m] in (0, 1) or 0xd0 <= d[m] <= 0xd9: return None, (2, at)
        if m + 3 > len(d): return None, (2, at)
        n = int.from_bytes(d[m + 1:m + 3], 'big')
        if n < 2 or m + 1 + n > len(d): return None, (2, at)
        c = d[m + 3:m + 1 + n]
        if d[m] == 0xeb and c[:2] == b'JP':
            if n < 18: return None, (3, at)
            i, q, stated = struct.unpack('>HII', c[2:12])
            form = 16 if stated == 1 else 8
            if form == 16:
                if n < 26: return None, (3, at)
                stated = int.from_bytes(c[16:24], 'big')
            if stated < form: return None, (3, at)
            met.append((i, q, (stated, form), c[12:16], c[8 + form:]))
        at = m + 1 + n

def box(d, kind, instance):
    met, end = walk(d)
    if met is None: return end
    ps = [p for p in met if p[3] == kind and p[0] == instance]
    if not ps: return 4, 0
    if len({p[2] for p in ps}) > 1: return 5, 0
    counts = collections.Counter(p[1] for p in ps)
    twice = [q for q in counts if counts[q] > 1]
    if twice: return 6, min(twice)
    gone = [q for q in range(1, len(ps) + 1) if q not in counts]
    if gone: return 7, gone[0]
    b = b''.join(p[4] for p in sorted(ps, key=lambda p: p[1]))
    stated, form = ps[0][2]
    if len(b) != stated - form: return 8, len(b)
    return 0, b

def listing(d):
    met, end = walk(d)
    lines = ''.join('%d %d %d %s\n' % (p[0], p[1], len(p[4]), p[3].hex().upper()) for p in met or [])
    return 'instance number bytes type\n' + lines + 'answer %d %d\n' % end

def sized(r, stated, form, kind, part):
    """a packet from its LBox on; now and then of the other form, with an edge for its long length, or cut within it"""
    if r.random() < .02: form = 24 - form
    if form == 8: return struct.pack('>I', stated % 2 ** 32) + kind + part
    if r.random() < .03: stated = r.choice([15, 16, stated + 2 ** 32, stated + 2 ** 63, 2 ** 64 - 1])
    whole = struct.pack('>I4sQ', 1, kind, stated % 2 ** 64) + part
    return whole[:r.randrange(8, 16)] if r.random() < .01 else whole

def made(r):
    ps = []
    for kind, instance in [(b'LPTS', 1), (b'LPTS', 2), (b'FINE', 1)]:
        n, form = r.randrange(5), r.choice([8, 16])
        parts = [bytes(r.randrange(256) for _ in range(r.randrange(4))) for _ in range(n)]
        stated = form + sum(map(len, parts)) + (r.random() < .1)
        if form == 16 and r.random() < .1: stated = r.choice([16, stated + 2 ** 32, stated + 2 ** 63, 2 ** 64 - 1])
        for k, part in enumerate(parts):
            q = k + 1 if r.random() < .93 else r.choice([0, 1, 2, 3, n + 1, 2 ** 32 - 1])
            ps.append(struct.pack('>HI', instance, q) + sized(r, stated + (r.random() < .04), form, kind, part))
    if r.random() < .5: r.shuffle(ps)
    out = b'\xff\xd8'
    for p in ps:
        if r.random() < .2: out += b'\xff\xe0' + struct.pack('>H', 4) + b'xx'
        if r.random() < .1: out += b'\xff\xeb' + struct.pack('>H', 4) + b'no'
        out += b'\xff' * r.choice([1, 1, 1, 2, 3]) + b'\xeb' + struct.pack('>H', len(p) + 4) + b'JP' + p
    out += b'\xff\xda' + bytes(r.randrange(256) for _ in range(r.randrange(3)))
    if r.random() < .25:
        i = r.randrange(len(out)); out = out[:i] + bytes([r.randrange(256)]) + out[i + 1:]
    if r.random() < .1: out = out[:r.randrange(len(out))]
    return out

files, seed = (int(sys.argv[1]) if len(sys.argv) > 1 else 1000), (int(sys.argv[2]) if len(sys.argv) > 2 else 1)
r, met = random.Random(seed), collections.Counter()
for k in range(files):
    d = made(r)
    p = subprocess.run(RUN + ['crates/listing/out/listing'], input=d, capture_output=True)
    if p.stdout.decode() != listing(d): sys.exit(f'file {k}: listing differs: {d.hex()}')
    n, x = box(d, b'LPTS', 1)
    met[n] += 1
    p = subprocess.run(RUN + ['crates/box_out/out/box_out', 'LPTS', '1'], input=d, capture_output=True)
    want = (x, b'') if n == 0 else (b'', b'answer %d %d\n' % (n, x))
    if (p.stdout, p.stderr) != want: sys.exit(f'file {k}: box differs: {d.hex()}')
print(f'{files} files agree; numbers met:', ' '.join(f'{n}: {met[n]}' for n in sorted(met)))
