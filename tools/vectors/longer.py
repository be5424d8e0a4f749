#!/usr/bin/env python3
"""longer.py IN OUT: the picture IN with every packet in the long form: LBox 1, and behind the type the stated length, which counts eight bytes more, in eight bytes.
IN must be sound, with no fill and every packet in the short form; boxes.py reads such a picture too."""
import struct, sys


def longer(file):
    out, at = file[:2], 2
    while file[at + 1] != 0xda:
        end = at + 2 + int.from_bytes(file[at + 2:at + 4], 'big')
        if file[at + 1] == 0xeb and file[at + 4:at + 6] == b'JP':
            stated, = struct.unpack('>I', file[at + 12:at + 16])
            inside = file[at + 4:at + 12] + struct.pack('>I', 1) + file[at + 16:at + 20] + struct.pack('>Q', stated + 8) + file[at + 20:end]
            out += file[at:at + 2] + struct.pack('>H', len(inside) + 2) + inside
        else:
            out += file[at:end]
        at = end
    return out + file[at:]


if __name__ == '__main__':
    open(sys.argv[2], 'wb').write(longer(open(sys.argv[1], 'rb').read()))
