"""The files that the programs *_vectors read (crates/records, crates/tallies): numbers of four bytes, the low byte first, and lists behind their counts.
A file of records begins with how many there are and where the first one stands; behind that stand the groups' names; a record begins with where its
group's name stands. Records of one group stand together, in the order in which the groups were first met."""
import struct


def numbers(*ns):
    return struct.pack(f'<{len(ns)}I', *ns)


def lent(data):
    return numbers(len(data)) + bytes(data)


def raw_values(list_):
    return numbers(*(v + 2**31 for v in list_))


def raw_sizes(list_):
    return struct.pack(f'<{len(list_)}H', *list_)


def values(list_):
    return numbers(len(list_)) + raw_values(list_)


def sizes(list_):
    return numbers(len(list_)) + raw_sizes(list_)


def text(records):
    """What the program must write."""
    names = list(dict.fromkeys(name for name, _ in records))
    counts = [sum(n == name for n, _ in records) for name in names]
    return ''.join(f'{name}: {n} of {n} right\n' for name, n in zip(names, counts))


def data(records):
    """The file: records are pairs of a group's name and what stands behind it."""
    names, at, head = {}, 8, b''
    for name, _ in records:
        if name not in names:
            names[name] = at + len(head)
            head += lent(name.encode())
    body = b''.join(numbers(names[name]) + rest for group in names for name, rest in records if name == group)
    return numbers(len(records), 8 + len(head)) + head + body


def write(records, stdin, stdout):
    with open(stdin, 'wb') as f:
        f.write(data(records))
    with open(stdout, 'w') as f:
        f.write(text(records))
    print(f'{len(records)} records, {len(data(records))} bytes')
