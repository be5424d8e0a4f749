"""Pictures as files that a viewer opens: PGM or PPM, and PNG by the standard library alone. A picture is its width, its components (1 is grey, 3 are red, green and blue), its largest possible sample,
and its samples pixel by pixel."""
import os, struct, zlib


def packed(top, samples):
    """Samples as bytes: one each where the largest possible one fits in it, else two, the high one first."""
    return struct.pack(f'>{len(samples)}{"B" if top < 256 else "H"}', *samples)


def write_pnm(path, width, components, top, samples):
    with open(path, 'wb') as f:
        f.write(b'P%d\n%d %d\n%d\n' % (5 if components == 1 else 6, width, len(samples) // (components * width), top) + packed(top, samples))


def scaled(top, whole, samples):
    """Samples from 0 to top as samples from 0 to whole, each to the nearest."""
    return [(2 * s * whole + top) // (2 * top) for s in samples]


def chunk(kind, data):
    return struct.pack('>I', len(data)) + kind + data + struct.pack('>I', zlib.crc32(kind + data))


def write_png(path, width, components, top, samples):
    """A PNG has 8 or 16 bits a sample, so samples of other depths are scaled to the next of the two."""
    bits, across = 8 if top < 256 else 16, components * width
    whole = (1 << bits) - 1
    shown = scaled(top, whole, samples)
    # a row begins with the number of its filter: 0 is none
    rows = b''.join(b'\0' + packed(whole, shown[at:at + across]) for at in range(0, len(shown), across))
    head = struct.pack('>2I5B', width, len(shown) // across, bits, 0 if components == 1 else 2, 0, 0, 0)
    with open(path, 'wb') as f:
        f.write(b'\x89PNG\r\n\x1a\n' + chunk(b'IHDR', head) + chunk(b'IDAT', zlib.compress(rows)) + chunk(b'IEND', b''))


def write_both(folder, name, width, components, top, samples, about):
    """Writes the picture as PGM or PPM and as PNG, and says so and what it is about."""
    os.makedirs(folder, exist_ok=True)
    plain, png = name + ('.pgm' if components == 1 else '.ppm'), name + '.png'
    write_pnm(os.path.join(folder, plain), width, components, top, samples)
    write_png(os.path.join(folder, png), width, components, top, samples)
    print(f'written: {os.path.join(folder, plain)}, {png}: {about}')


def enlarged(times, width, pixels):
    """Each pixel as a square of times by times pixels."""
    return [pixel for at in range(0, len(pixels), width) for _ in range(times) for pixel in pixels[at:at + width] for _ in range(times)]


def side_by_side(between, width, left, right):
    """The samples of two pictures with rows of so many samples, row by row, and those between them in each row."""
    return [s for at in range(0, len(left), width) for part in (left[at:at + width], between, right[at:at + width]) for s in part]
