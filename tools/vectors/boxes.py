#!/usr/bin/env python3
"""boxes.py STDIN STDOUT: makes the vectors of boxes that crates/box_vectors runs and what it must print: files of both forms, in order, shuffled, with several
instances, strangers, fill, broken heads, damage and cuts, by the second reading of the rules in tools/box_check.py, the bundled picture of the reference software, and pictures
with practice beside live, held to the answer of the live one. Long boxes, the picture's among them (longer.py), are held to the answer of the short one with the same bytes, and at their edges to answers worked out by hand.
A record is type, instance, room, the file, and the number, place and bytes expected; the second place is 0 in each answer, and has no column."""
import os, random, struct, sys
from fields import lent, numbers, write
from longer import longer

HERE = os.path.dirname(os.path.abspath(__file__))
ROOT = os.path.dirname(os.path.dirname(HERE))
source = open(os.path.join(ROOT, 'tools', 'box_check.py')).read().split('\nfiles, seed = ')[0]
rules = {}
exec(source, rules)

records = []
SHORT, LONG = 8, 16  # a form is how many bytes of the stated length are the head of the box


def record(group, file, kind, instance, room, same=None, told=None):
    """What is expected is what the rules give for the file, or for the one that it must be the same as. Told is what was worked out by hand: number and
    place, or 0 and the bytes."""
    number, answer = rules['box'](same or file, kind, instance)
    assert (number, answer) == rules['box'](file, kind, instance)
    expected = b''
    if number == 0:
        expected, answer = answer, len(answer)
        if answer > room:
            number, expected = 9, b''
    assert told in (None, (number, answer if number else expected)), (group, file.hex(), told)
    head = struct.pack('<IHI', int.from_bytes(kind, 'big'), instance, room)
    records.append((group, head + lent(file) + numbers(number, answer) + lent(expected)))


def packet(number, payload, stated, instance=1, kind=b'LPTS', fill=1, form=SHORT):
    """A packet. In the long form LBox is 1, and the stated length stands in eight bytes in front of the payload."""
    if form == LONG:
        stated, payload = 1, struct.pack('>Q', stated) + payload
    return b'\xff' * fill + b'\xeb' + struct.pack('>H', 18 + len(payload)) + b'JP' + struct.pack('>HII', instance, number, stated) + kind + payload


def long(number, payload, stated, instance=1, kind=b'LPTS', fill=1):
    return packet(number, payload, stated, instance, kind, fill, LONG)


def jpeg(*segments):
    return b'\xff\xd8' + b''.join(segments) + b'\xff\xda'


def broken_heads():
    """3 of each kind, of the asked packet and of a stranger, alone, behind fill and behind other segments; what is skipped; and 2 before 3 at one segment."""
    good = packet(1, b'ab', 10)
    owners = ((1, b'LPTS'), (2, b'LPTS'), (1, b'FINE'))
    heads = [packet(1, b'', lbox, instance, kind, fill) for lbox in (0, 1, 7, 8) for instance, kind in owners for fill in (1, 3)]
    heads += [long(1, b'', stated, instance, kind, fill) for stated in (15, 16) for instance, kind in owners for fill in (1, 3)]
    heads += [b'\xff\xeb' + struct.pack('>H', n) + (b'JP' + bytes(14))[:n - 2] for n in range(2, 18)]
    heads += [b'\xff\xeb\0\4' + tag for tag in (b'JQ', b'KP')] + [b'\xff\xec\0\4JP', b'\xff\xec' + packet(1, b'', 7)[2:]]
    heads += [b'\xff\xec' + long(1, b'', 15)[2:], long(1, b'', 15).replace(b'JP', b'JQ')]
    for head in heads:
        for front in (b'', b'\xff\xe0\0\3x', good):
            record('packet heads broken', jpeg(front, head), b'LPTS', 1, 9)
    for front in (b'', good):
        for head in (packet(1, b'', 7), packet(1, b'', 1), long(1, b'', 15)):
            record('2 before 3', b'\xff\xd8' + front + head[:3] + bytes([head[3] + 1]) + head[4:], b'LPTS', 1, 9, told=(2, 2 + len(front)))
            record('2 before 3', b'\xff\xd8' + front + b'\xff\0' + head, b'LPTS', 1, 9, told=(2, 2 + len(front)))
            record('2 before 3', b'\xff\xd8' + front + head + b'\xff\0', b'LPTS', 1, 9, told=(3, 2 + len(front)))
        for segment in (b'\xff\xeb\0\5JP', b'\xff\xff\xeb\0\x11JP'):
            record('2 before 3', b'\xff\xd8' + front + segment, b'LPTS', 1, 9, told=(2, 2 + len(front)))


def long_boxes():
    """Long boxes, held to the short ones with the same bytes, strangers of both forms between their packets; their numbers, their room, and files cut."""
    rnd = random.Random(26)
    strangers = [packet(1, b'stranger', 16, 2), long(1, b'', 16, 1, b'FINE'), packet(2, b'', 8, 1, b'FINE'), long(1, b'odd', 2**40, 2)]
    for n in (1, 2, 5, 40):
        parts = [bytes(rnd.randrange(256) for _ in range(rnd.randrange(6))) for _ in range(n)]
        box, order = b''.join(parts), list(range(n))
        for group in ('long boxes in order', 'long boxes shuffled'):
            short, long_ = (
                jpeg(*(packet(i + 1, parts[i], form + len(box), fill=1 + i % 3, form=form) + strangers[i % 4] for i in order)) for form in (SHORT, LONG))
            record(group, long_, b'LPTS', 1, len(box), short, (0, box))
            record('the same in the short form', short, b'LPTS', 1, len(box), told=(0, box))
            rnd.shuffle(order)
    for sequence, told in (
            ([1, 1], (6, 1)), ([1, 3], (7, 2)), ([0], (7, 1)), ([0, 0], (6, 0)), ([2, 2, 1], (6, 2)), ([1, 2, 2, 4, 4], (6, 2)), ([5, 4, 3, 1], (7, 2)),
            ([4294967295, 1], (7, 2)), ([3, 2, 1], (0, b'123'))):
        record('numbers of long boxes', jpeg(*(long(q, b'%d' % (q % 10), 16 + len(sequence)) for q in sequence)), b'LPTS', 1, 9, told=told)
    file = jpeg(long(2, b'cd', 20), packet(1, b'x', 9, 2), long(1, b'ab', 20))
    for room in range(7):
        record('room of long boxes', file, b'LPTS', 1, room, told=(9, 4) if room < 4 else (0, b'abcd'))
    for n in (1, 2, 3):
        for room in (0, 1):
            record('long boxes of length 0', jpeg(*(long(n - i, b'', 16) for i in range(n))), b'LPTS', 1, room, told=(0, b''))
    begins = (2, 32, 53, 83)  # of the segments and of SOS
    for cut in range(len(file)):
        told = (2, max(b for b in begins if b <= cut)) if 2 <= cut else (1, 0)
        record('files of both forms cut at every byte', file[:cut], b'LPTS', 1, 9, told=told)


def mixed_forms():
    """5 where one box has packets of both forms, also where 6, 7 or 8 would be next: with one stated length, and with lengths that leave the same contents.
    Two boxes may differ."""
    for sequence in ([1, 2], [2, 1], [1, 2, 3], [1, 1], [1, 3]):
        size = 4 * len(sequence)
        for odd in range(len(sequence)):
            for form in (SHORT, LONG):
                forms = [SHORT + LONG - form if k == odd else form for k in range(len(sequence))]
                for group, stated in (('one length in both forms', lambda f: form + size), ('the same contents in both forms', lambda f: f + size)):
                    body = [packet(q, b'%04d' % q, stated(f), fill=q, form=f) for q, f in zip(sequence, forms)]
                    record(group, jpeg(*body), b'LPTS', 1, 99, told=(5, 0))
    for a in (SHORT, LONG):
        for b in (SHORT, LONG):
            for instance, kind in ((2, b'LPTS'), (1, b'FINE')):
                own, other = b'abcdefghijkl'[:20 - a], b'mnopqrstuvwx'[:20 - b]
                file = jpeg(packet(2, own[3:], 20, form=a), packet(1, other, 20, instance, kind, 2, b), packet(1, own[:3], 20, form=a))
                record('two boxes of one length in each form', file, b'LPTS', 1, 12, told=(0, own))
                record('two boxes of one length in each form', file, kind, instance, 12, told=(0, other))


def long_lengths():
    """Long lengths at edges: below 16 is 3, of any packet; of the asked box any other than the one that fits is 8, and no byte of the eight is left out."""
    stranger = packet(1, b'stranger', 16, 2)
    for payload in (b'', b'abc'):
        fits = 16 + len(payload)
        lengths = [0, 1, 15, 16, 17, 19, 20, 2**32 - 1, 2**32, 2**32 + len(payload), 2**63, 2**64 - 1, fits << 32, fits << 56]
        for stated in dict.fromkeys(lengths + [fits + 2**bit for bit in range(8, 64, 8)] + [fits + 2**63]):
            told = (0, payload) if stated == fits else (8, len(payload))
            file = jpeg(long(1, payload, stated))
            record('long lengths at edges', file, b'LPTS', 1, 9, told=(3, 2) if stated in (0, 1, 15) else told)
            file = jpeg(stranger, long(2, payload[2:], stated, fill=3), long(1, payload[:2], stated))
            record('long lengths at edges', file, b'LPTS', 1, 9, told=(3, 30) if stated in (0, 1, 15) else told)
    for form in (SHORT, LONG):
        for stated in (0, 1, 15, 16, 17, 2**32, 2**63, 2**64 - 1):
            for instance, kind in ((2, b'LPTS'), (1, b'FINE')):
                own = packet(1, b'ab', form + 2, form=form)
                told = (3, 2 + len(own)) if stated in (0, 1, 15) else (0, b'ab')
                record('long lengths of strangers', jpeg(own, long(1, b'', stated, instance, kind)), b'LPTS', 1, 9, told=told)
    for bit in range(0, 64, 8):
        for one, two in ((19, 19 + 2**bit), (19 + 2**bit, 19), (2**64 - 1, 2**64 - 1 - 2**bit), (2**64 - 1 - 2**bit, 2**64 - 1)):
            record('long lengths that differ in one byte', jpeg(long(1, b'ab', one), long(2, b'c', two)), b'LPTS', 1, 9, told=(5, 0))


def long_heads():
    """LBox 1 with each segment length about 26; and each LBox about 1, and ones with a byte 1, in front of eight bytes that are a long length."""
    for n in range(18, 28):
        behind = b'\x20' * (n - 18) if n < 26 else struct.pack('>Q', n - 10) + b'x' * (n - 26)
        for instance in (1, 2):
            for fill in (1, 3):
                for front in (b'', b'\xff\xe0\0\3x', long(1, b'ab', 18, 3)):
                    told = (3, 2 + len(front)) if n < 26 else (0, b'x' * (n - 26)) if instance == 1 else (4, 0)
                    file = jpeg(front, packet(1, behind, 1, instance, fill=fill))
                    record('segment lengths 18 to 27 with LBox 1', file, b'LPTS', 1, 9, told=told)
    payload = struct.pack('>Q', 19) + b'abc'
    for lbox in (*range(9), 16, 19, 20, 256, 257, 2**16 + 1, 2**24, 2**24 + 1, 2**31 + 1):
        told = (3, 2) if lbox in (0, 2, 3, 4, 5, 6, 7) else (0, b'abc') if lbox == 1 else (0, payload) if lbox == 19 else (8, 11)
        record('LBox in front of a long length', jpeg(packet(1, payload, lbox)), b'LPTS', 1, 99, told=told)
        file = jpeg(packet(1, b'ab', 10), packet(1, payload, lbox, 2, fill=2))
        record('LBox in front of a long length', file, b'LPTS', 1, 99, told=(3, 24) if told[0] == 3 else (0, b'ab'))


def laid(segments, rnd, behind):
    """FF D8, the segments, each behind some fill, DA and what follows it."""
    fill = lambda: b'\xff' * rnd.randrange(1, 4)
    return b'\xff\xd8' + b''.join(fill() + s for s in segments) + fill() + b'\xda' + behind


def practice_beside_live():
    """A8: a file, the same with strangers, comments that hold a packet of the box, other fill and other bytes behind SOS, and that in another order: what is
    expected of all three is what the first one gives."""
    rnd = random.Random(8)
    some = lambda n: bytes(rnd.randrange(256) for _ in range(rnd.randrange(n)))
    for _ in range(45):
        parts = [some(5) for _ in range(rnd.randrange(1, 5))]
        numbers = [k + 1 if rnd.random() < .8 else rnd.randrange(6) for k in range(len(parts))]
        form = rnd.choice([SHORT, LONG])
        stated = form + sum(map(len, parts)) + (rnd.random() < .1)
        own = [packet(q, part, stated + (rnd.random() < .03), fill=0, form=form) for q, part in zip(numbers, parts)]
        beside = list(own)
        for _ in range(rnd.randrange(1, 6)):
            instance, kind = rnd.choice([(2, b'LPTS'), (1, b'FINE'), (0x0100, b'LPTS'), (1, b'LPTT')])
            form = rnd.choice([SHORT, LONG])
            stranger = packet(rnd.choice(numbers), some(5), max(form, rnd.choice([8, stated])), instance, kind, 0, form)
            held = b'\xff' + rnd.choice(own)
            beside.insert(rnd.randrange(len(beside) + 1), rnd.choice([stranger, stranger, b'\xfe' + struct.pack('>H', 2 + len(held)) + held]))
        moved = rnd.sample(beside, len(beside))
        live, room = laid(own, rnd, some(3)), rnd.choice([30, 30, 3])
        record('practice beside live: the live picture', live, b'LPTS', 1, room)
        record('practice beside live: strangers put in', laid(beside, rnd, b'\xff' + rnd.choice(own)), b'LPTS', 1, room, live)
        record('practice beside live: in another order', laid(moved, rnd, some(3)), b'LPTS', 1, room, live)


def main():
    rnd = random.Random(184773)
    for n in (1, 2, 5, 40, 300):
        parts = [bytes(rnd.randrange(256) for _ in range(rnd.randrange(6))) for _ in range(n)]
        lbox = 8 + sum(map(len, parts))
        order = list(range(n))
        for group in ('packets in order', 'packets shuffled'):
            body = b''.join(packet(i + 1, parts[i], lbox, fill=1 + i % 3) + packet(1, b'stranger', 16, 2) for i in order)
            record(group, b'\xff\xd8' + body + b'\xff\xda', b'LPTS', 1, lbox)
            rnd.shuffle(order)
    for numbers in ([1, 1], [1, 3], [0], [0, 0], [2, 2, 1], [1, 2, 2, 4, 4], [5, 4, 3, 1], [4294967295, 1], list(range(2, 300)) + [299]):
        body = b''.join(packet(q, b'a', 8 + len(numbers)) for q in numbers)
        record('numbers that stand twice or are missing', b'\xff\xd8' + body + b'\xff\xda', b'LPTS', 1, 100)
    whole = jpeg(packet(2, b'cd', 12), packet(1, b'ab', 12))
    for room in range(6):
        record('room', whole, b'LPTS', 1, room)
    for cut in range(len(whole)):
        record('files cut at every byte', whole[:cut], b'LPTS', 1, 9)
    for marker in range(256):
        record('every marker', b'\xff\xd8\xff' + bytes([marker]) + b'\0\2' + packet(1, b'', 8) + b'\xff\xda', b'LPTS', 1, 9)
    broken_heads()
    long_boxes()
    mixed_forms()
    long_lengths()
    long_heads()
    for _ in range(700):
        record('files made at random', rules['made'](rnd), b'LPTS', rnd.choice([1, 1, 2]), rnd.choice([0, 3, 30]))
    picture = open(os.path.join(ROOT, 'pictures', 'finish.jpg'), 'rb').read()
    record('the bundled picture', picture, b'TONE', 1, 9000)
    record('the bundled picture', picture, b'FINE', 3, 9000)
    record('the bundled picture in the long form', longer(picture), b'TONE', 1, 9000, picture)
    record('the bundled picture in the long form', longer(picture), b'FINE', 3, 9000, picture)
    practice_beside_live()
    write(records, sys.argv[1], sys.argv[2])


main()
