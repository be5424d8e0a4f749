#!/usr/bin/env python3
"""stored.py: fourth planes of tiny pictures, as libjpeg-turbo and the ISO reference software of JPEG XT wrote them, printed as entries of lists in Rattle: blocks, the AC
table, the values of level 4, the bytes. Each is held to the rules of 01 in rules.py, with the longest end runs. The pictures are made in integers."""
from itertools import groupby
from planes import both_ways, boxes, built, by_reference, coefficients, libjpeg_planes, refined
from rules import ac_words


# ---- pictures

def noise(seed, low, top, flat, blocks=()):
    """Numbers from `low`, `top` of them, in the order in which they are asked for; `flat` in these blocks."""
    state = seed

    def at(x, y):
        nonlocal state
        if x // 8 in blocks:
            return flat
        state = (1103515245 * state + 12345) % (1 << 31)
        return low + (state >> 16) % top
    return at


LIBJPEG = (     # width, quality, what it is, the picture; seeds are chosen for FF 00
    (8, 90, 'a ramp', lambda x, y: 20 * x + 7 * y),
    (24, 60, 'noise, a flat block, noise', noise(22, 100, 40, 128, (1,))),
    (8, 75, 'noise', noise(114, 0, 256, 0)),
)
REFERENCE = (
    (16, 90, 'a slow ramp', lambda x, y: 2000 + 3 * x),
    (8, 90, 'a ramp', lambda x, y: 300 * x + 100 * y),
    (24, 90, 'a flat block, noise, a flat block', noise(37, 2000, 64, 2048, (0, 2))),
)


def of_libjpeg(width, quality, picture):
    return [(plane, blocks, new, data, table) for plane, blocks, _, new, data, table in libjpeg_planes(width, 8, 4, quality, picture)]


def of_reference(width, quality, picture):
    jpeg = by_reference(width, 8, 4, picture, ['-q', str(quality)])
    return refined(coefficients(jpeg), boxes(jpeg, b'FINE'), 4)


# ---- text

def list_of(items, end='[]'):
    return '(' + ' ∷ '.join([*items, end]) + ')'


def bytes_text(data):
    return list_of(f'0x{b:02x}' for b in data)


def table_text(counts, codes):
    used = counts.rstrip(b'\0')
    return f'(table {list_of(map(str, used), f"replicate {16 - len(used)} 0")} {bytes_text(codes)})'


def values_text(values):
    """From the last one; four zeros in a row and more are `zeros`."""
    parts = []
    for zero, some in ((zero, list(some)) for zero, some in groupby(values, lambda v: v == 0)):
        parts += [f'zeros {len(some)}'] if zero and len(some) > 3 else [f'pos {v}' if v >= 0 else f'negsuc {-v - 1}' for v in some]
    text, joins = '[]', False       # whether ++ is its outermost
    for part in reversed(parts):
        if not part.startswith('zeros'):
            text, joins = f'{part} ∷ ({text})' if joins else f'{part} ∷ {text}', False
        elif text == '[]':
            text = part
        else:
            text, joins = f'{part} ++ ({text})', True
    return f'({text})'


def entry(blocks, values, data, table):
    if table:
        return f'storedAc {blocks} {table_text(*table)} {values_text(values)} {bytes_text(data)}'
    return f'storedDc {blocks} {values_text(values)} {bytes_text(data)}'


def seen(blocks, values, data, table):
    """What a plane has of what is rare."""
    codes = [w for w in ac_words(blocks, values) if isinstance(w, int)] if table else []
    return [name for name, is_ in (('FF 00', b'\xff\0' in data), ('F0', 0xF0 in codes), ('an end run over blocks', any(c % 16 == 0 and 0 < c < 0xF0 for c in codes))) if is_]


def main():
    built()
    for program, pictures, planes_of in (('libjpeg', LIBJPEG, of_libjpeg), ('the reference software', REFERENCE, of_reference)):
        rare = set()
        for width, quality, what, picture in pictures:
            print(f'-- {program}, {width} x 8 pixels, quality {quality}: {what}')
            for blocks, values, data, table in (rest for plane, *rest in planes_of(width, quality, picture) if plane == 4):
                both_ways(4, blocks, values, data, table)
                of, has = 'AC' if table else 'DC', seen(blocks, values, data, table)
                sizes = [f'new values: {sum(abs(v) == 1 for v in values)}, corrections: {sum(abs(v) > 1 for v in values)}'] if table else []
                print('-- ' + ', '.join([of] + sizes + has))
                print(entry(blocks, values, data, table))
                rare |= {(of, name) for name in has}
        assert rare == {('DC', 'FF 00'), ('AC', 'FF 00'), ('AC', 'F0'), ('AC', 'an end run over blocks')}


if __name__ == '__main__':
    main()
