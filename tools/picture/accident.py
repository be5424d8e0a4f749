#!/usr/bin/env python3
"""accident.py PICTURE OUT: the picture with its first refinement box (FINE, instance 0: the bits of a DC plane) cut in two packets that are both
numbered 1, the second one altered: a practice packet in a real picture."""
import sys


def main():
    jpeg = bytearray(open(sys.argv[1], 'rb').read())
    at = 2
    while True:
        size = int.from_bytes(jpeg[at + 2:at + 4], 'big')
        segment = jpeg[at:at + 2 + size]
        if segment[1] == 0xEB and segment[4:8] == b'JP\x00\x00' and segment[16:20] == b'FINE':
            break
        at += 2 + size
    head, payload = segment[:20], segment[20:]
    half = len(payload) - 8
    altered = bytearray(payload[half:])
    for i in range(7):
        if altered[i] ^ 0x5A != 0xFF and altered[i] != 0xFF:
            altered[i] ^= 0x5A
    packets = b''.join(bytes(head[:2]) + (18 + len(p)).to_bytes(2, 'big') + bytes(head[4:]) + bytes(p) for p in (payload[:half], altered))
    with open(sys.argv[2], 'wb') as f:
        f.write(bytes(jpeg[:at]) + packets + bytes(jpeg[at + 2 + size:]))


main()
