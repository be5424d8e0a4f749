#!/usr/bin/env python3
"""beside.py PICTURE ACCIDENT FOLDER: what the ISO reference software and ours say of a picture with two packets numbered 1. Where that software is there, what it shows of the two files is written into FOLDER, as PGM and as PNG:
the two side by side, and where and how much they differ."""
import os, sys
sys.path.insert(0, os.path.dirname(os.path.abspath(__file__)))
from images import side_by_side, write_both
from library import box
from read import reference

# so many white pixels stand between the two pictures
LINE = 4


def write_pictures(folder, whole, broken, far):
    """The picture at the left and its accident at the right; and how far each sample of the two is from the other, the largest distance being white."""
    width, components, top, samples = whole
    both = side_by_side([top] * (LINE * components), components * width, samples, broken[3])
    write_both(folder, 'accident', 2 * width + LINE, components, top, both, 'what it shows of the picture, and of the accident at the right')
    largest = max(1, max(far))
    write_both(folder, 'accident_change', width, components, largest, far, f'how much the accident changed each sample, white is {largest} of {top}')


def main():
    whole, broken = (reference(path) for path in sys.argv[1:3])
    if whole and broken:
        far = [abs(a - b) for a, b in zip(whole[3], broken[3])]
        print(f'the reference software: reads it without a word and shows another picture: {sum(d > 0 for d in far)} of {len(far)} samples changed, by up to {max(far)}')
        write_pictures(sys.argv[3], whole, broken, far)
    else:
        print('the reference software is not there (apt-get install libjpeg-tools), or it said no: there are no pictures of the accident to write')
    answer = box(open(sys.argv[2], 'rb').read(), b'FINE', 0)
    meaning = f': two packets claim the number {answer.place}; take the file back to the camera' if answer.number == 6 else ''
    print(f'ours: answer {answer.number} {answer.place}{meaning}')


main()
