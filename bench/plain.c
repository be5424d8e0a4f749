/* The same rules in plain C, for comparison of speed: written as one would write them, with the same checks of the input. */
#include <stdio.h>
#include <stdlib.h>
#include <string.h>
#include "plain.h"

static uint32_t refused(uint32_t number, uint64_t at, void *destination, size_t bytes, uint64_t *place, uint64_t *second)
{
    memset(destination, 0, bytes);
    *place = at;
    *second = 0;
    return number;
}

static uint32_t done(uint64_t count, uint64_t *place, uint64_t *second)
{
    *place = count;
    *second = 0;
    return 0;
}

/* ---- bits */

typedef struct { const uint8_t *data; size_t len, at; unsigned byte, left; } bits;

static int bit(bits *b)
{
    if (b->left == 0) {
        if (b->at >= b->len) return -12;
        unsigned v = b->data[b->at];
        if (v == 0xFF) {
            if (b->at + 1 >= b->len) return -12;
            if (b->data[b->at + 1]) return -13;
            b->at++;
        }
        b->at++;
        b->byte = v;
        b->left = 8;
    }
    return b->byte >> --b->left & 1;
}

static int only_padding(const bits *b) { return (b->byte | ~0u << b->left) == ~0u && b->at == b->len; }

/* The second place. 12: the data's length; 13: its FF; else the byte of the last bit asked for: an FF, never the 00 behind it. */
static uint32_t stopped(int number, size_t block, const bits *b, int32_t *out, size_t bytes, uint64_t *place, uint64_t *second)
{
    refused((uint32_t)number, block, out, bytes, place, second);
    *second = number == 12 ? b->len : number == 13 ? b->at : b->at - (b->byte == 0xFF ? 2 : 1);
    return (uint32_t)number;
}

typedef struct { uint8_t *out; size_t room, at; unsigned held, count; } putter;

static void put_byte(putter *p, unsigned v)
{
    if (p->at < p->room) p->out[p->at] = (uint8_t)v;
    p->at++;
    if (v == 0xFF) {
        if (p->at < p->room) p->out[p->at] = 0;
        p->at++;
    }
}

static void put(putter *p, unsigned b)
{
    p->held = p->held << 1 | b;
    if (++p->count == 8) {
        put_byte(p, p->held & 0xFF);
        p->held = p->count = 0;
    }
}

static void put_digits(putter *p, unsigned n, unsigned v)
{
    while (n) put(p, v >> --n & 1);
}

static void pad(putter *p)
{
    while (p->count) put(p, 1);
}

/* ---- DC planes */

static size_t first_outside(const int32_t *v, size_t n, unsigned level, int dc)
{
    int32_t high = 1 << (11 + level), low = dc ? -high : 1 - high;
    for (size_t i = 0; i < n; i++)
        if (v[i] < low || v[i] >= high) return i;
    return n;
}

uint32_t PLAIN(read_dc)(uint32_t plane, size_t blocks, const uint8_t *data, size_t data_len, const int32_t *values, size_t n, int32_t *out, size_t room, uint64_t *place, uint64_t *second)
{
    size_t bytes = room * sizeof *out;
    if (plane < 1 || plane > 4 || blocks > 1024) return refused(20, 0, out, bytes, place, second);
    if (n != blocks) return refused(21, 0, out, bytes, place, second);
    size_t bad = first_outside(values, n, plane - 1, 1);
    if (bad < n) return refused(11, bad, out, bytes, place, second);
    if (room < n) return refused(9, n, out, bytes, place, second);
    bits b = {data, data_len, 0, 0, 0};
    for (size_t i = 0; i < n; i++) {
        int t = bit(&b);
        if (t < 0) return stopped(-t, i, &b, out, bytes, place, second);
        out[i] = 2 * values[i] + t;
    }
    if (!only_padding(&b)) return refused(18, b.at, out, bytes, place, second);
    return done(n, place, second);
}

uint32_t PLAIN(write_dc)(uint32_t plane, size_t blocks, const int32_t *values, size_t n, uint8_t *out, size_t room, uint64_t *place, uint64_t *second)
{
    if (plane < 1 || plane > 4 || blocks > 1024) return refused(20, 0, out, room, place, second);
    if (plane == 4) return refused(28, 0, out, room, place, second);
    if (n != blocks) return refused(21, 0, out, room, place, second);
    size_t bad = first_outside(values, n, plane, 1);
    if (bad < n) return refused(11, bad, out, room, place, second);
    putter p = {out, room, 0, 0, 0};
    for (size_t i = 0; i < n; i++) put(&p, (unsigned)values[i] & 1);
    pad(&p);
    if (p.at > room) return refused(9, p.at, out, room, place, second);
    return done(p.at, place, second);
}

/* ---- AC planes */

static int good_table(const uint8_t *counts, size_t nc, const uint8_t *codes, size_t nv)
{
    uint8_t seen[256] = {0};
    unsigned total = 0, sum = 0;
    if (nc != 16 || nv < 1 || nv > 256) return 0;
    for (int l = 0; l < 16; l++) {
        total += counts[l];
        sum += (unsigned)counts[l] << (15 - l);
    }
    if (total != nv || sum > 65535) return 0;
    for (size_t i = 0; i < nv; i++)
        if (seen[codes[i]]++) return 0;
    return 1;
}

static int take_code(bits *b, const uint8_t *counts, const uint8_t *codes)
{
    unsigned over = 0, place = 0;
    for (int l = 0; l < 16; l++) {
        int t = bit(b);
        if (t < 0) return t;
        over = 2 * over + (unsigned)t;
        if (over < counts[l]) return codes[place + over];
        over -= counts[l];
        place += counts[l];
    }
    return -14;
}

uint32_t PLAIN(read_ac)(uint32_t plane, size_t blocks, const uint8_t *counts, size_t nc, const uint8_t *codes, size_t nv, const uint8_t *data, size_t data_len,
                       const int32_t *values, size_t n, int32_t *out, size_t room, uint64_t *place, uint64_t *second)
{
    size_t bytes = room * sizeof *out;
    if (plane < 1 || plane > 4 || blocks > 1024) return refused(20, 0, out, bytes, place, second);
    if (n != 63 * blocks) return refused(21, 0, out, bytes, place, second);
    if (!good_table(counts, nc, codes, nv)) return refused(10, 0, out, bytes, place, second);
    size_t bad = first_outside(values, n, plane - 1, 0);
    if (bad < n) return refused(11, bad, out, bytes, place, second);
    if (room < n) return refused(9, n, out, bytes, place, second);
    bits b = {data, data_len, 0, 0, 0};
    size_t run = 0;
    for (size_t k = 0; k < blocks; k++) {
        const int32_t *in = values + 63 * k;
        int32_t *to = out + 63 * k;
        int p = 0, t = 0;
        while (p < 63 && !run) {
            int code = take_code(&b, counts, codes);
            if (code < 0) return stopped(-code, k, &b, out, bytes, place, second);
            int r = code >> 4, s = code & 15, fresh = 0, zeros = r;
            if (s > 1) return stopped(15, k, &b, out, bytes, place, second);
            if (s == 0 && r < 15) {
                unsigned e = 0;
                for (int i = 0; i < r; i++) {
                    if ((t = bit(&b)) < 0) return stopped(-t, k, &b, out, bytes, place, second);
                    e = 2 * e + (unsigned)t;
                }
                run = ((size_t)1 << r) + e;
                if (run > blocks - k) return stopped(17, k, &b, out, bytes, place, second);
                break;
            }
            if (s == 1) {
                if ((t = bit(&b)) < 0) return stopped(-t, k, &b, out, bytes, place, second);
                fresh = t ? 1 : -1;
            }
            for (; p < 63; p++) {
                if (in[p]) {
                    if ((t = bit(&b)) < 0) return stopped(-t, k, &b, out, bytes, place, second);
                    to[p] = 2 * in[p] + (in[p] > 0 ? t : -t);
                } else if (zeros-- == 0) {
                    to[p] = fresh;
                    break;
                } else {
                    to[p] = 0;
                }
            }
            if (p == 63) return stopped(16, k, &b, out, bytes, place, second);
            p++;
        }
        if (run) {
            for (; p < 63; p++) {
                to[p] = 0;
                if (in[p]) {
                    if ((t = bit(&b)) < 0) return stopped(-t, k, &b, out, bytes, place, second);
                    to[p] = 2 * in[p] + (in[p] > 0 ? t : -t);
                }
            }
            run--;
        }
    }
    if (!only_padding(&b)) return refused(18, b.at, out, bytes, place, second);
    return done(n, place, second);
}

typedef struct { uint16_t number[256]; uint8_t size[256]; int missing; } coder;

static void assign(coder *c, const uint8_t *counts, const uint8_t *codes)
{
    unsigned code = 0, k = 0;
    memset(c->size, 0, sizeof c->size);
    c->missing = -1;
    for (int l = 0; l < 16; l++, code <<= 1)
        for (int i = 0; i < counts[l]; i++, k++) {
            c->number[codes[k]] = (uint16_t)code++;
            c->size[codes[k]] = (uint8_t)(l + 1);
        }
}

static void put_code(coder *c, putter *p, unsigned v)
{
    if (!c->size[v] && c->missing < 0) c->missing = (int)v;
    put_digits(p, c->size[v], c->number[v]);
}

static int last_new(const int32_t *b)
{
    int p = 62;
    while (p >= 0 && b[p] != 1 && b[p] != -1) p--;
    return p;
}

static unsigned magnitude(int32_t v) { return v < 0 ? 0u - (unsigned)v : (unsigned)v; }

uint32_t PLAIN(write_ac)(uint32_t plane, size_t blocks, const uint8_t *counts, size_t nc, const uint8_t *codes, size_t nv, const int32_t *values, size_t n, uint8_t *out, size_t room, uint64_t *place, uint64_t *second)
{
    if (plane < 1 || plane > 4 || blocks > 1024) return refused(20, 0, out, room, place, second);
    if (plane == 4) return refused(28, 0, out, room, place, second);
    if (n != 63 * blocks) return refused(21, 0, out, room, place, second);
    if (!good_table(counts, nc, codes, nv)) return refused(10, 0, out, room, place, second);
    size_t bad = first_outside(values, n, plane, 0);
    if (bad < n) return refused(11, bad, out, room, place, second);
    coder c;
    assign(&c, counts, codes);
    putter q = {out, room, 0, 0, 0};
    size_t run = 0;
    for (size_t k = 0; k < blocks; k++) {
        const int32_t *b = values + 63 * k;
        int last = run ? -1 : last_new(b), from = 0;
        while (from <= last) {
            int p = from, zeros = 0;
            while (!(magnitude(b[p]) == 1)) zeros += b[p++] == 0;
            if (zeros > 15) {
                for (p = from, zeros = 0; zeros < 16; p++) zeros += b[p] == 0;
                p--;
                put_code(&c, &q, 0xF0);
            } else {
                put_code(&c, &q, (unsigned)(16 * zeros + 1));
                put(&q, b[p] > 0);
            }
            for (; from <= p; from++)
                if (magnitude(b[from]) > 1) put(&q, magnitude(b[from]) & 1);
        }
        if (from < 63 && !run) {
            unsigned r = 0;
            for (run = 1; k + run < blocks && last_new(values + 63 * (k + run)) < 0; run++) {}
            while ((size_t)2 << r <= run) r++;
            put_code(&c, &q, 16 * r);
            put_digits(&q, r, (unsigned)(run - ((size_t)1 << r)));
        }
        for (; from < 63; from++)
            if (magnitude(b[from]) > 1) put(&q, magnitude(b[from]) & 1);
        if (run) run--;
    }
    pad(&q);
    if (c.missing >= 0) return refused(19, (uint64_t)c.missing, out, room, place, second);
    if (q.at > room) return refused(9, q.at, out, room, place, second);
    return done(q.at, place, second);
}

/* ---- the inverse transform: the double sum of 64 products */

static const int16_t cosines[9] = {8192, 8035, 7568, 6811, 5793, 4551, 3135, 1598, 0};
static const uint8_t natural[64] = {
    0,  1,  8,  16, 9,  2,  3,  10, 17, 24, 32, 25, 18, 11, 4,  5,  12, 19, 26, 33, 40, 48, 41, 34, 27, 20, 13, 6,  7,  14, 21, 28,
    35, 42, 49, 56, 57, 50, 43, 36, 29, 22, 15, 23, 30, 37, 44, 51, 58, 59, 52, 45, 38, 31, 39, 46, 53, 60, 61, 54, 47, 55, 62, 63};

static int32_t kernel(int x, int u)
{
    if (u == 0) return 5793;
    int m = (2 * x + 1) * u % 32;
    if (m > 16) m = 32 - m;
    return m > 8 ? -cosines[16 - m] : cosines[m];
}

uint32_t PLAIN(inverse_transform)(uint32_t r, size_t blocks, const int32_t *values, size_t n, const uint16_t *q, size_t nq, int32_t *out, size_t room, uint64_t *place, uint64_t *second)
{
    size_t bytes = room * sizeof *out;
    if (r > 4 || blocks > 1024) return refused(20, 0, out, bytes, place, second);
    if (n != 64 * blocks || nq != 64) return refused(21, 0, out, bytes, place, second);
    for (size_t i = 0; i < 64; i++)
        if (q[i] < 1 || q[i] > 255) return refused(22, i, out, bytes, place, second);
    int32_t high = 1 << (11 + r);
    for (size_t i = 0; i < n; i++)
        if (values[i] >= high || values[i] < (i % 64 ? 1 - high : -high)) return refused(11, i, out, bytes, place, second);
    if (room < n) return refused(9, n, out, bytes, place, second);
    int64_t k[8][8], s[8][8];
    for (int x = 0; x < 8; x++)
        for (int u = 0; u < 8; u++) k[x][u] = kernel(x, u);
    for (size_t b = 0; b < blocks; b++) {
        for (int i = 0; i < 64; i++) s[natural[i] / 8][natural[i] % 8] = (int64_t)values[64 * b + i] * q[i];
        for (int y = 0; y < 8; y++)
            for (int x = 0; x < 8; x++) {
                int64_t sum = 1 << 27;
                for (int v = 0; v < 8; v++)
                    for (int u = 0; u < 8; u++) sum += k[x][u] * k[y][v] * s[v][u];
                out[64 * b + 8 * y + x] = (int32_t)((sum >> 28) + (128 << r));
            }
    }
    return done(n, place, second);
}

/* ---- what a preview owes: the sums of |K(x,u) K(y,v)| q, by rows first */

static const uint16_t magnitudes[8][8] = {
    {5793, 8035, 7568, 6811, 5793, 4551, 3135, 1598}, {5793, 6811, 3135, 1598, 5793, 8035, 7568, 4551},
    {5793, 4551, 3135, 8035, 5793, 1598, 7568, 6811}, {5793, 1598, 7568, 4551, 5793, 6811, 3135, 8035},
    {5793, 1598, 7568, 4551, 5793, 6811, 3135, 8035}, {5793, 4551, 3135, 8035, 5793, 1598, 7568, 6811},
    {5793, 6811, 3135, 1598, 5793, 8035, 7568, 4551}, {5793, 8035, 7568, 6811, 5793, 4551, 3135, 1598}};

uint32_t PLAIN(preview_owes)(uint32_t left, const uint16_t *q, size_t nq, uint32_t *out, size_t room, uint64_t *place, uint64_t *second)
{
    size_t bytes = room * sizeof *out;
    if (left > 4) return refused(20, 0, out, bytes, place, second);
    if (nq != 64) return refused(21, 0, out, bytes, place, second);
    for (size_t i = 0; i < 64; i++)
        if (q[i] < 1 || q[i] > 255) return refused(22, i, out, bytes, place, second);
    if (room < 64) return refused(9, 64, out, bytes, place, second);
    uint32_t table[8][8], rows[8][8];
    for (int i = 0; i < 64; i++) table[natural[i] / 8][natural[i] % 8] = q[i];
    for (int v = 0; v < 8; v++)
        for (int x = 0; x < 8; x++) {
            uint32_t sum = 0;
            for (int u = 0; u < 8; u++) sum += magnitudes[x][u] * table[v][u];
            rows[v][x] = sum;
        }
    uint64_t d = 1u << left;
    for (int y = 0; y < 8; y++)
        for (int x = 0; x < 8; x++) {
            uint64_t weight = 0;
            for (int v = 0; v < 8; v++) weight += (uint64_t)magnitudes[y][v] * rows[v][x];
            out[8 * y + x] = (uint32_t)((2 * (d - 1) * weight + ((d + 1) << 28) - 1) >> 29);
        }
    return done(64, place, second);
}

/* ---- boxes: the packets of one type and instance, sorted by number */

/* the stated length counts the box's head: 8 bytes, and 16 in the long form */
typedef struct { uint32_t number; uint16_t head, len; uint64_t stated; const uint8_t *payload; } packet;

static int by_number(const void *a, const void *b)
{
    uint32_t x = ((const packet *)a)->number, y = ((const packet *)b)->number;
    return x < y ? -1 : x > y;
}

static uint32_t be(const uint8_t *p, int n)
{
    uint32_t v = 0;
    while (n--) v = v << 8 | *p++;
    return v;
}

static int is_packet(const uint8_t *m, size_t size) { return *m == 0xEB && size >= 4 && m[3] == 0x4A && m[4] == 0x50; }

/* the packet whose marker stands at m, of a segment of this length; 0 where its head is broken (3) */
static int packet_at(const uint8_t *m, size_t size, packet *p)
{
    if (size < 18) return 0;
    p->number = be(m + 7, 4);
    p->stated = be(m + 11, 4);
    p->head = 8;
    if (p->stated == 1) {
        if (size < 26) return 0;
        p->stated = (uint64_t)be(m + 19, 4) << 32 | be(m + 23, 4);
        p->head = 16;
    }
    p->payload = m + 11 + p->head;
    p->len = (uint16_t)(size - 10 - p->head);
    return p->stated >= p->head;
}

uint32_t PLAIN(box_bytes)(const uint8_t *file, size_t len, uint32_t type, uint16_t instance, uint8_t *out, size_t room, uint64_t *place, uint64_t *second)
{
    static packet packets[1 << 20];
    size_t n = 0, at = 2, total = 0;
    if (len < 2 || file[0] != 0xFF || file[1] != 0xD8) return refused(1, 0, out, room, place, second);
    for (;;) {
        size_t m = at;
        while (m < len && file[m] == 0xFF) m++;
        if (m == at || m >= len) return refused(2, at, out, room, place, second);
        unsigned marker = file[m];
        if (marker == 0xDA) break;
        if (marker <= 1 || (marker >= 0xD0 && marker <= 0xD9) || m + 3 > len) return refused(2, at, out, room, place, second);
        size_t size = be(file + m + 1, 2);
        if (size < 2 || m + 1 + size > len) return refused(2, at, out, room, place, second);
        if (is_packet(file + m, size)) {
            packet p;
            if (!packet_at(file + m, size, &p)) return refused(3, at, out, room, place, second);
            if (be(file + m + 5, 2) == instance && be(file + m + 15, 4) == type) {
                packets[n++] = p;
                total += p.len;
            }
        }
        at = m + 1 + size;
    }
    if (n == 0) return refused(4, 0, out, room, place, second);
    for (size_t i = 1; i < n; i++)
        if (packets[i].stated != packets[0].stated || packets[i].head != packets[0].head) return refused(5, 0, out, room, place, second);
    int sorted = 1;
    for (size_t i = 1; i < n; i++) sorted &= packets[i - 1].number < packets[i].number;
    if (!sorted) qsort(packets, n, sizeof *packets, by_number);
    for (size_t i = 1; i < n; i++)
        if (packets[i].number == packets[i - 1].number) return refused(6, packets[i].number, out, room, place, second);
    size_t want = 1;
    for (size_t i = 0; i < n; i++) want += packets[i].number == want;
    if (want <= n) return refused(7, want, out, room, place, second);
    if (total != packets[0].stated - packets[0].head) return refused(8, total, out, room, place, second);
    if (room < total) return refused(9, total, out, room, place, second);
    size_t to = 0;
    for (size_t i = 0; i < n; i++) {
        memcpy(out + to, packets[i].payload, packets[i].len);
        to += packets[i].len;
    }
    return done(total, place, second);
}

/* ---- the listing */

static size_t text(uint8_t *out, size_t room, size_t at, const char *s)
{
    for (; *s; s++, at++)
        if (at < room) out[at] = (uint8_t)*s;
    return at;
}

/* one walk over the packets: its answer, and where it was refused; with `lines` the packets' lines are written */
static uint32_t walked(const uint8_t *file, size_t len, size_t *at, int lines, uint8_t *out, size_t room, size_t *to)
{
    char line[80];
    packet p;
    *at = 0;
    if (len > 65536) return 20;
    if (len < 2 || file[0] != 0xFF || file[1] != 0xD8) return 1;
    for (*at = 2;;) {
        size_t m = *at, size;
        while (m < len && file[m] == 0xFF) m++;
        if (m == *at || m >= len) return 2;
        if (file[m] == 0xDA) break;
        if (file[m] <= 1 || (file[m] >= 0xD0 && file[m] <= 0xD9) || m + 3 > len) return 2;
        size = be(file + m + 1, 2);
        if (size < 2 || m + 1 + size > len) return 2;
        if (is_packet(file + m, size)) {
            if (!packet_at(file + m, size, &p)) return 3;
            if (lines) {
                snprintf(line, sizeof line, "%u %u %u %08X\n", be(file + m + 5, 2), p.number, p.len, be(file + m + 15, 4));
                *to = text(out, room, *to, line);
            }
        }
        *at = m + 1 + size;
    }
    *at = 0;
    return 0;
}

/* A refused file has no lines. What stands past the text keeps its contents, so no line is written until the answer is known. */
uint32_t PLAIN(list_packets)(const uint8_t *file, size_t len, uint8_t *out, size_t room, uint64_t *place, uint64_t *second)
{
    char line[80];
    size_t at, to = text(out, room, 0, "instance number bytes type\n");
    uint32_t number = walked(file, len, &at, 0, out, room, &to);
    if (!number) walked(file, len, &at, 1, out, room, &to);
    snprintf(line, sizeof line, "answer %u %zu\n", number, at);
    to = text(out, room, to, line);
    if (to > room) return refused(9, to, out, room, place, second);
    return done(to, place, second);
}

/* ---- the merge: straight curve, transforms, no matrix */

static int64_t near(int64_t z, int64_t m)
{
    int64_t a = 2 * z + m, b = 2 * m;
    return a >= 0 ? a / b : -((-a + b - 1) / b);
}

static int64_t clip(int64_t v, int64_t top) { return v < 0 ? 0 : v > top ? top : v; }

static void coloured(int64_t *v, int64_t centre)
{
    int64_t y = v[0] * 1000000, cb = v[1] - centre, cr = v[2] - centre;
    v[0] = near(y + 1402000 * cr, 1000000);
    v[1] = near(y - 344136 * cb - 714136 * cr, 1000000);
    v[2] = near(y + 1772000 * cb, 1000000);
}

uint32_t PLAIN(merge)(uint32_t rb, uint32_t rh, uint32_t rr, uint32_t components, size_t pixels, int transform, int residual_on, const int32_t *base, size_t nb,
                     const int32_t *residual, size_t nr, uint16_t *out, size_t room, uint64_t *place, uint64_t *second)
{
    size_t bytes = room * sizeof *out, n = components * pixels;
    if (rb < 1 || rb > 8 || rh > 4 || rr > 4 || (components != 1 && components != 3) || pixels > 65536 || (components == 1 && transform)) return refused(20, 0, out, bytes, place, second);
    if (nb != n || nr != (residual_on ? n : 0)) return refused(21, 0, out, bytes, place, second);
    if (room < n) return refused(9, n, out, bytes, place, second);
    int64_t low = (1 << (8 + rh)) - 1, high = (1 << (8 + rb)) - 1, centre = 1 << (7 + rb);
    for (size_t p = 0; p < pixels; p++) {
        int64_t v[3], w[3];
        for (uint32_t c = 0; c < components; c++) v[c] = base[c * pixels + p];
        if (transform) coloured(v, (int64_t)1 << (7 + rh));
        for (uint32_t c = 0; c < components; c++) v[c] = near(clip(v[c], low) * high, low);
        if (residual_on) {
            for (uint32_t c = 0; c < components; c++) {
                int64_t z = residual[c * pixels + p];
                w[c] = rb >= rr ? z * ((int64_t)1 << (rb - rr)) : near(z, (int64_t)1 << (rr - rb));
            }
            if (transform) coloured(w, centre);
            for (uint32_t c = 0; c < components; c++) v[c] += w[c] - centre;
        }
        for (uint32_t c = 0; c < components; c++) out[c * pixels + p] = (uint16_t)clip(v[c], high);
    }
    return done(n, place, second);
}
