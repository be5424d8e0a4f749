"""Refinement planes by docs/RULES.md (R, E) and T.81 (Annexes C, F, G), in exact integers: an independent program, written from the rules and code by
code, not position by position. Each call gives (number, place, second, output); output is None on a refusal. The second place is that of a stop, the offset of the
last bit asked for; "All other answers carry 0 as second place." (N17)"""

RETIRED = (4,)      # E11: planes that are read and not written; by the rules of 01, which stored ones are held to, there are none: retired=()


class Stop(Exception):
    def __init__(self, number, offset):
        self.number, self.offset = number, offset


class Bits:
    """Bits from the highest of each byte; a byte is read only when a bit of it is needed; FF is followed by 00. `asked` is the offset of the byte of the last bit
    asked for: the FF, never its 00."""

    def __init__(self, data):
        self.data, self.at, self.byte, self.left, self.asked = data, 0, 0, 0, 0

    def bit(self):
        if self.left == 0:
            if self.at >= len(self.data):
                raise Stop(12, self.at)
            byte = self.data[self.at]
            size = 2 if byte == 0xFF else 1
            if self.at + size > len(self.data):
                raise Stop(12, self.at + 1)
            if size == 2 and self.data[self.at + 1] != 0:
                raise Stop(13, self.at)
            self.asked, self.byte, self.left = self.at, byte, 8
            self.at += size
        self.left -= 1
        return self.byte >> self.left & 1

    def number(self, n):
        v = 0
        for _ in range(n):
            v = v * 2 + self.bit()
        return v

    def stop(self, number):
        return Stop(number, self.asked)

    def padded(self):
        return self.byte & ((1 << self.left) - 1) == (1 << self.left) - 1 and self.at == len(self.data)


def good_table(counts, values):
    if len(counts) != 16 or not 1 <= len(values) <= 256 or sum(counts) != len(values) or len(set(values)) != len(values):
        return False
    return sum(c << (16 - l) for l, c in enumerate(counts, 1)) <= 65535


def assigned(counts, values):
    """T.81 Annex C: the code of each value, as (length, number)."""
    out, code, k = {}, 0, 0
    for length, count in enumerate(counts, 1):
        for _ in range(count):
            out[values[k]] = (length, code)
            code += 1
            k += 1
        code <<= 1
    return out


class Codes:
    def __init__(self, counts, values):
        self.of = {code: value for value, code in assigned(counts, values).items()}

    def take(self, bits):
        number = 0
        for length in range(1, 17):
            number = number * 2 + bits.bit()
            if (length, number) in self.of:
                return self.of[length, number]
        raise bits.stop(14)


def dc_ok(v, level):
    return -(1 << 11 + level) <= v <= (1 << 11 + level) - 1


def ac_ok(v, level):
    return abs(v) <= (1 << 11 + level) - 1


def first_bad(values, ok):
    for i, v in enumerate(values):
        if not ok(v):
            return i
    return None


def refused(number, place, second=0):
    return number, place, second, None


def given(out):
    return 0, len(out), 0, out


def closed(bits, out):
    return given(out) if bits.padded() else refused(18, bits.at)


def read_dc(plane, blocks, data, values, room):
    if not 1 <= plane <= 4 or blocks > 1024:
        return refused(20, 0)
    if len(values) != blocks:
        return refused(21, 0)
    bad = first_bad(values, lambda v: dc_ok(v, plane - 1))
    if bad is not None:
        return refused(11, bad)
    if room < blocks:
        return refused(9, blocks)
    bits, out = Bits(data), []
    for b, v in enumerate(values):
        try:
            out.append(2 * v + bits.bit())
        except Stop as s:
            return refused(s.number, b, s.offset)
    return closed(bits, out)


def corrected(c, bit):
    return 2 * c + (bit if c > 0 else -bit)


def read_ac(plane, blocks, counts, codes, data, values, room):
    if not 1 <= plane <= 4 or blocks > 1024:
        return refused(20, 0)
    if len(values) != 63 * blocks:
        return refused(21, 0)
    if not good_table(counts, codes):
        return refused(10, 0)
    bad = first_bad(values, lambda v: ac_ok(v, plane - 1))
    if bad is not None:
        return refused(11, bad)
    if room < 63 * blocks:
        return refused(9, 63 * blocks)
    bits, table, out, run = Bits(data), Codes(counts, codes), [], 0
    for b in range(blocks):
        block = list(values[63 * b:63 * b + 63])
        try:
            p = 0
            while p < 63 and run == 0:
                code = table.take(bits)
                r, s = code >> 4, code & 15
                if s > 1:
                    raise bits.stop(15)
                if s == 0 and r < 15:
                    run = (1 << r) + bits.number(r)
                    if run > blocks - b:
                        raise bits.stop(17)
                    break
                new = (1 if bits.bit() else -1) if s == 1 else 0
                zeros = r if s == 1 else 15
                while p < 63:
                    if block[p]:
                        block[p] = corrected(block[p], bits.bit())
                    elif zeros == 0:
                        block[p] = new
                        break
                    else:
                        zeros -= 1
                    p += 1
                if p == 63:
                    raise bits.stop(16)
                p += 1
            if run:
                while p < 63:
                    if block[p]:
                        block[p] = corrected(block[p], bits.bit())
                    p += 1
                run -= 1
        except Stop as s:
            return refused(s.number, b, s.offset)
        out += block
    return closed(bits, out)


def pack(bits):
    out, held = bytearray(), []
    for b in bits + [1] * (-len(bits) % 8):
        held.append(b)
        if len(held) == 8:
            byte = int(''.join(map(str, held)), 2)
            out += b'\xff\x00' if byte == 255 else bytes([byte])
            held = []
    return bytes(out)


def digits(n, v):
    return [v >> i & 1 for i in range(n - 1, -1, -1)]


def half(v):
    return v // 2 if v >= 0 else -(-v // 2)


def write_dc(plane, blocks, values, room, retired=RETIRED):
    if not 1 <= plane <= 4 or blocks > 1024:
        return refused(20, 0)
    if plane in retired:
        return refused(28, 0)
    if len(values) != blocks:
        return refused(21, 0)
    bad = first_bad(values, lambda v: dc_ok(v, plane))
    if bad is not None:
        return refused(11, bad)
    out = pack([v - 2 * (v // 2) for v in values])
    return given(out) if len(out) <= room else refused(9, len(out))


def ac_words(blocks, values):
    """What is written, in writing order: code values as numbers, plain bits as lists."""
    words, pending, held = [], 0, []

    def end_run():
        nonlocal pending, held
        if pending:
            r = pending.bit_length() - 1
            words.append(16 * r)
            words.append(digits(r, pending - (1 << r)) + held)
            pending, held = 0, []

    for b in range(blocks):
        block = values[63 * b:63 * b + 63]
        new = [p for p in range(63) if abs(block[p]) == 1]
        last, zeros, marks = (new[-1] if new else -1), 0, []
        for p in range(63):
            v = block[p]
            if p == last + 1:
                if p > 0:
                    assert zeros == 0 and not marks
                pending += 1
            if p > last:
                if abs(v) > 1:
                    held.append(abs(v) & 1)
                continue
            if v == 0:
                zeros += 1
                # the 16th zero before a later new value: F0, then the corrections on its way
                if zeros == 16:
                    end_run()
                    words.append(0xF0)
                    words.append(marks)
                    zeros, marks = 0, []
            elif abs(v) > 1:
                marks.append(abs(v) & 1)
            else:
                end_run()
                words.append(16 * zeros + 1)
                words.append([1 if v > 0 else 0] + marks)
                zeros, marks = 0, []
    end_run()
    return words


def write_ac(plane, blocks, counts, codes, values, room, retired=RETIRED):
    if not 1 <= plane <= 4 or blocks > 1024:
        return refused(20, 0)
    if plane in retired:
        return refused(28, 0)
    if len(values) != 63 * blocks:
        return refused(21, 0)
    if not good_table(counts, codes):
        return refused(10, 0)
    bad = first_bad(values, lambda v: ac_ok(v, plane))
    if bad is not None:
        return refused(11, bad)
    table, bits = assigned(counts, codes), []
    for word in ac_words(blocks, values):
        if isinstance(word, int):
            if word not in table:
                return refused(19, word)
            bits += digits(*table[word])
        else:
            bits += word
    out = pack(bits)
    return given(out) if len(out) <= room else refused(9, len(out))
