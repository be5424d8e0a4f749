"""The calls of libreader_c.a from Python, through a shared library made of it: the one in the folder that AUHOWIPI_LIBRARY names (tools/library makes it), else
target/staticlib's, which `tools/library target/staticlib` makes for x86-64."""
import collections, ctypes, os, subprocess, tempfile

ROOT = os.path.dirname(os.path.dirname(os.path.dirname(os.path.abspath(__file__))))
ARCHIVE = os.path.join(os.environ.get('AUHOWIPI_LIBRARY', os.path.join(ROOT, 'target', 'staticlib')), 'libreader_c.a')


def load():
    if not os.path.exists(ARCHIVE):
        raise SystemExit(f'there is no {ARCHIVE}: run `tools/library target/staticlib` first')
    shared = os.path.join(tempfile.mkdtemp(), 'libreader_c.so')
    subprocess.run(['gcc', '-shared', '-o', shared, '-Wl,--whole-archive', ARCHIVE, '-Wl,--no-whole-archive'], check=True)
    return ctypes.CDLL(shared)


C = load()
# `second` is the byte of the coded data that 12 to 17 name, and 0 with every other number; `out` is the destination
Answer = collections.namedtuple('Answer', 'number place second out')


def lent(kind, values):
    array = (kind * max(1, len(values)))(*values)
    return array, ctypes.c_size_t(len(values))


def call(name, *parts):
    """Gives an Answer. A part is a number with its type, or (type, values); the last is the destination."""
    arguments, arrays = [], []
    for part in parts:
        if isinstance(part, tuple):
            array, size = lent(*part)
            arrays.append(array)
            arguments += [array, size]
        else:
            arguments.append(part)
    place, second = ctypes.c_uint64(), ctypes.c_uint64()
    function = getattr(C, name)
    function.restype = ctypes.c_uint32
    number = function(*arguments, ctypes.byref(place), ctypes.byref(second))
    return Answer(number, place.value, second.value, list(arrays[-1]))


U8, U16, U32, I16, I32 = ctypes.c_uint8, ctypes.c_uint16, ctypes.c_uint32, ctypes.c_int16, ctypes.c_int32
u32, size = ctypes.c_uint32, ctypes.c_size_t


def box(file, name, instance):
    answer = call('xt_box_bytes', (U8, file), u32(int.from_bytes(name, 'big')), ctypes.c_uint16(instance), (U8, bytes(len(file))))
    return answer._replace(out=bytes(answer.out[:answer.place]) if answer.number == 0 else b'')


def listing(file):
    answer = call('xt_list_packets', (U8, file), (U8, bytes(1 << 16)))
    return bytes(answer.out[:answer.place]).decode()


def read_dc(plane, blocks, data, values):
    return call('xt_read_dc_plane', u32(plane), size(blocks), (U8, data), (I32, values), (I32, [0] * blocks))


def read_ac(plane, blocks, counts, codes, data, values):
    return call('xt_read_ac_plane', u32(plane), size(blocks), (U8, counts), (U8, codes), (U8, data), (I32, values), (I32, [0] * (63 * blocks)))


def transform(refinement, blocks, values, quantisers):
    return call('xt_inverse_transform', u32(refinement), size(blocks), (I32, values), (U16, quantisers), (I32, [0] * (64 * blocks)))


def preview_owes(left, quantisers):
    """How far a preview can be from the full picture at each place of a block, row by row, with so many planes left."""
    return call('xt_preview_owes', u32(left), (U16, quantisers), (U32, [0] * 64))


def merge(rb, rh, rr, components, base, table, residual):
    """The merge without a matrix; three components have their transforms."""
    coloured, curve, added = int(components == 3), (1 if table else 0), (1 if residual else 0)
    return call('xt_merge', u32(rb), u32(rh), u32(rr), u32(components), size(len(base) // components), u32(coloured), u32(curve), u32(0), u32(added), u32(coloured),
                (I32, base), (I32, residual), (U16, table), (I16, []), (U16, [0] * len(base)))
