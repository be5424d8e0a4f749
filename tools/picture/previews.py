#!/usr/bin/env python3
"""previews.py PICTURE FOLDER: how far the previews of a picture are from the full picture, beside what the law allows (docs/RULES.md, V1 to V3, D9, D10). A preview is what the first 0, 1, .. planes give, transformed
at R = 0, 1, ..; its samples are compared in the full picture's scale, those of each component, and then the results of the merge. It ends with an error where a sample is further away than the law allows.
The previews, the full picture and maps of what is owed are written into FOLDER, as PGM or PPM and as PNG. Needs the library first (library.py)."""
import os, sys
sys.path.insert(0, os.path.dirname(os.path.abspath(__file__)))
from images import enlarged, scaled, write_both
from library import box, preview_owes
from read import all_boxes, levels_of, merged, output_bits, pixel_by_pixel, refuse, rows, transformed

NAMES = {1: (('grey',), ('grey',)), 3: (('Y', 'Cb', 'Cr'), ('red', 'green', 'blue'))}
# how much of Cb and of Cr is in red, green and blue, in millionths, whatever the sign
WEIGHTS = ((0, 1402000), (344136, 714136), (1772000, 0))
# a place of a block is a square of so many pixels in a map
SQUARE = 16


def samples_owe(left, quantisers):
    """What a component's samples owe at each place of a block, with so many planes left."""
    answer = preview_owes(left, quantisers)
    if answer.number:
        refuse(f'what a preview owes with {left} left', answer)
    return answer.out


def colours_owe(left, owed):
    """What red, green and blue owe before the curve at each place of a block, by what Y, Cb and Cr owe there; one component stays as it is."""
    if len(owed) == 1:
        return owed
    halves = ((1 << left) + 1) * 1000000
    return [[(2 * (1000000 * y + l * cb + m * cr) + halves - 1) // 2000000 for y, cb, cr in zip(*owed)] for l, m in WEIGHTS]


def results_owe(rb, planes, left, owed):
    """What the results of the merge by the straight curve owe at each place of a block, by what is owed before the curve: a preview's white, times 2^left, falls short of the full picture's by 2^left - 1."""
    top, whole = (1 << 8 + planes) - 1, (1 << 8 + rb) - 1
    return [[-(-whole * (e + (1 << left) - 1) // top) for e in component] for component in owed]


def compared(width, full, preview, owed):
    """The largest difference found, what the law allows there (the least, where several differ as much), and how many samples are beyond what their place allows."""
    far = [abs(f - p) for f, p in zip(full, preview)]
    allowed = [owed[8 * (i // width % 8) + i % width % 8] for i in range(len(full))]
    largest = max(far)
    return largest, min(a for a, f in zip(allowed, far) if f == largest), sum(f > a for a, f in zip(allowed, far))


def show(names, width, previews, owed):
    """A line for each component and count of planes; gives how many samples are beyond. The last preview is the full picture."""
    print(f'{"":5}  planes read  left  largest found  allowed there  allowed anywhere  samples beyond')
    planes, sum_beyond = len(previews) - 1, 0
    for k, name in enumerate(names):
        for j, preview in enumerate(previews):
            place_owes = owed[planes - j][k]
            found, allowed, beyond = compared(width, previews[planes][k], preview[k], place_owes)
            print(f'{name:5}  {j:11}  {planes - j:4}  {found:13}  {allowed:13}  {max(place_owes):16}  {beyond:14}')
            sum_beyond += beyond
    return sum_beyond


def write_previews(folder, width, top, results):
    planes = len(results) - 1
    for j, result in enumerate(results):
        name = f'preview_{j}' if j < planes else 'full'
        write_both(folder, name, width, len(result), top, pixel_by_pixel(result), f'the results after {j} of {planes} planes')


def write_maps(folder, owed):
    """A map of what the places of a block owe before the curve, for each count of planes left; the most of it is the brightest."""
    for left, components in enumerate(owed):
        numbers = pixel_by_pixel(components)
        if left:
            shown = scaled(max(numbers), 255, numbers)
            pixels = enlarged(SQUARE, 8, [shown[i:i + len(components)] for i in range(0, len(shown), len(components))])
            about = f'what the 64 places of a block owe before the curve with {left} left, {min(numbers)} to {max(numbers)}, the brightest'
            write_both(folder, f'owed_{left}', 8 * SQUARE, len(components), 255, [s for pixel in pixels for s in pixel], about)


def main():
    path, folder = sys.argv[1:3]
    file = open(path, 'rb').read()
    width, height, components = levels_of('base', path, file, all_boxes(file, b'FINE'), say=lambda line: None)
    rb, planes = output_bits(file) - 8, len(components[0][1]) - 1
    # the samples that pad the blocks outside the picture are left out
    samples = [[rows(width, height, transformed('base', j, levels[j], quantisers)) for quantisers, levels in components] for j in range(planes + 1)]
    results = [merged(rb, j, 0, preview, [], [])[1] for j, preview in enumerate(samples)]
    sample_names, result_names = NAMES[len(components)]
    owed = [[samples_owe(left, quantisers) for quantisers, _ in components] for left in range(planes + 1)]
    before_curve = [colours_owe(left, owed[left]) for left in range(planes + 1)]
    print(f'samples before the merge, {8 + planes} bits; those of a preview times 2^left:')
    in_scale = [[[s << planes - j for s in component] for component in preview] for j, preview in enumerate(samples)]
    beyond = show(sample_names, width, in_scale, owed)
    tone = ", and the file's TONE table is left aside" if box(file, b'TONE', 1).number == 0 else ''
    print(f'results of the merge, {8 + rb} bits, without a residual; the law is about the straight curve, so that curve is taken{tone}:')
    beyond += show(result_names, width, results, [results_owe(rb, planes, left, before_curve[left]) for left in range(planes + 1)])
    write_previews(folder, width, (1 << 8 + rb) - 1, results)
    write_maps(folder, before_curve)
    if beyond:
        raise SystemExit(f'{beyond} samples are beyond what the law allows')


if __name__ == '__main__':
    main()
