#!/usr/bin/env python3
"""practice.py > crates/practice_cases/stdout: what practice_cases must write. The files are those of its source; what each gives is by the second reading of the rules in tools/box_check.py."""
import os, re

ROOT = os.path.dirname(os.path.dirname(os.path.dirname(os.path.abspath(__file__))))
rules = {}
exec(open(os.path.join(ROOT, 'tools', 'box_check.py')).read().split('\nfiles, seed = ')[0], rules)


def line(name, file, instance, room):
    number, answer = rules['box'](file, b'LPTS', instance)
    bytes_ = answer if number == 0 else b''
    place = len(bytes_) if number == 0 else answer
    if len(bytes_) > room:
        number = 9
    after = [0] * room if number else list(bytes_) + [46] * (room - len(bytes_))
    # N17: the second place is 0 in each answer on boxes
    return f'{name} {instance} {room}: {number} {place} 0 ' + ' '.join(map(str, after + [46] * (6 - room)))


source = open(os.path.join(ROOT, 'crates', 'practice_cases', 'src', 'main.rt')).read()
for name, digits in re.findall(r'show\(\s*b"([a-z-]+)",\s*\d+,\s*b"((?:\\x[0-9A-F]{2})+)"', source):
    for instance, room in ((1, 6), (1, 3), (2, 6)):
        print(line(name, bytes.fromhex(digits.replace('\\x', '')), instance, room))
