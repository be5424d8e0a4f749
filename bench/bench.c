/* bench: each call of libreader_c beside the plain C version of the same rules, built by gcc and by clang, on the same input in the same run.
 * A line for each: units a second, our time over that of each compiler's plain C, and the ratio of our times at twice the size (2 is linear).
 * The same answer is the same number, place, second place and destination; damaged planes, small files of boxes and small writings of planes are compared too. */
#include <stdio.h>
#include <stdlib.h>
#include <string.h>
#include <time.h>
#include "auhowipi.h"
#define PLAIN(name) gcc_##name
#include "plain.h"
#ifdef BY_CLANG
#undef PLAIN
#define PLAIN(name) clang_##name
#include "plain.h"
#endif

static uint32_t seed = 18477;
static uint32_t rnd(uint32_t n) { seed = seed * 1664525u + 1013904223u; return (uint32_t)((uint64_t)seed * n >> 32); }
static double now(void) { struct timespec t; clock_gettime(CLOCK_PROCESS_CPUTIME_ID, &t); return (double)t.tv_sec + (double)t.tv_nsec * 1e-9; }

enum { BLOCKS = 1024, PIXELS = 65536, FILES = 4 << 20 };
static uint8_t data[1 << 20], other[1 << 20], file[FILES], counts[16], codes[32];
static uint8_t box1[FILES], box2[FILES];
static int32_t full[64 * BLOCKS], old[64 * BLOCKS], out1[3 * PIXELS], out2[3 * PIXELS], base[3 * PIXELS], residual[3 * PIXELS];
static uint16_t quantisers[64], tables[64 * BLOCKS], merged1[3 * PIXELS], merged2[3 * PIXELS];
static uint32_t owed1[64 * BLOCKS], owed2[64 * BLOCKS];
static uint64_t place1, place2, second1, second2;
static size_t file_len;
static int bad;

typedef uint32_t (*run)(size_t size, uint64_t *place, uint64_t *second);

/* a call's time: as many calls as last; a call in front of them, which is not timed, makes the file where there is one */
static double seconds(run f, size_t size, uint64_t *place, uint64_t *second)
{
    int calls = 0;
    f(size, place, second);
    double begin = now(), spent;
    do {
        f(size, place, second);
        calls++;
        spent = now() - begin;
    } while (spent < 0.02);
    return spent / calls;
}

/* ours, and plain C by each compiler */
enum { OURS, GCC, CLANG, HALF, TIMES };

/* the best of several times each, taken in turn: what slows the machine for a while slows all */
static void times(double best[TIMES], run by[TIMES], size_t size)
{
    for (int k = 0; k < TIMES; k++) best[k] = 1e9;
    for (int t = 0; t < 9; t++)
        for (int k = 0; k < TIMES; k++) {
            if (!by[k]) continue;
            double spent = seconds(by[k], k == HALF ? size / 2 : size, &place1, &second1);
            if (spent < best[k]) best[k] = spent;
        }
}

#ifdef BY_CLANG
#define BOTH(f) gcc_##f, clang_##f
#else
#define BOTH(f) gcc_##f, 0
#endif

/* what plain C never answers: a place that our call left as it is would differ */
static void unwritten(void) { place1 = second1 = UINT64_MAX; }

static int alike(uint32_t n1, uint32_t n2) { return n1 == n2 && place1 == place2 && second1 == second2; }

static void compare(const char *name, const char *unit, size_t units, size_t size, run ours, run gcc, run clang, const void *a, const void *b, size_t bytes)
{
    double t[TIMES];
    run by[TIMES] = {ours, gcc, clang, ours};
    unwritten();
    uint32_t n1 = ours(size, &place1, &second1), n2 = gcc(size, &place2, &second2);
    int same = alike(n1, n2) && memcmp(a, b, bytes) == 0;
    if (clang) {
        memset((void *)b, 0x5A, bytes);
        n2 = clang(size, &place2, &second2);
        same &= alike(n1, n2) && memcmp(a, b, bytes) == 0;
    }
    bad += !same;
    times(t, by, size);
    printf("| %s | %.3g | %s | %.2f | ", name, (double)units / t[OURS], unit, t[OURS] / t[GCC]);
    if (clang) printf("%.2f", t[OURS] / t[CLANG]);
    printf(" | %.2f | %s |\n", t[OURS] / t[HALF], same ? "yes" : "NO");
    fflush(stdout);
}

/* plane 4 is read and not written; a plane's bytes do not depend on its number, so what plane 3 gives is read as plane 4 from the halves */
static uint32_t w_dc(size_t n, uint64_t *p, uint64_t *s) { return xt_write_dc_plane(3, n, full, n, data, sizeof data, p, s); }
static uint32_t r_dc(size_t n, uint64_t *p, uint64_t *s) { return xt_read_dc_plane(4, n, data, (n + 7) / 8, old, n, out1, n, p, s); }
static uint32_t w_ac(size_t n, uint64_t *p, uint64_t *s) { return xt_write_ac_plane(3, n, counts, 16, codes, 32, full, 63 * n, data, sizeof data, p, s); }
static size_t length_for(size_t n) { static size_t whole, half; if (!whole) { uint64_t p, s; w_ac(BLOCKS, &p, &s); whole = p; w_ac(BLOCKS / 2, &p, &s); half = p; w_ac(BLOCKS, &p, &s); } return n == BLOCKS ? whole : half; }
static uint8_t halfway[1 << 20];
static const uint8_t *coded_for(size_t n) { return n == BLOCKS ? data : halfway; }
static uint32_t r_ac(size_t n, uint64_t *p, uint64_t *s) { return xt_read_ac_plane(4, n, counts, 16, codes, 32, coded_for(n), length_for(n), old, 63 * n, out1, 63 * n, p, s); }
static uint32_t it(size_t n, uint64_t *p, uint64_t *s) { return xt_inverse_transform(4, n, full, 64 * n, quantisers, 64, out1, 64 * n, p, s); }
/* a call has no size: n of them, each with a table of its own, 0 to 4 planes left in turn */
typedef uint32_t (*owes)(uint32_t, const uint16_t *, size_t, uint32_t *, size_t, uint64_t *, uint64_t *);
static uint32_t owed_by(owes f, uint32_t *owed, size_t n, uint64_t *p, uint64_t *s)
{
    uint32_t number = 0;
    for (size_t i = 0; i < n; i++) number |= f((uint32_t)(i % 5), tables + 64 * i, 64, owed + 64 * i, 64, p, s);
    return number;
}
static uint32_t po(size_t n, uint64_t *p, uint64_t *s) { return owed_by(xt_preview_owes, owed1, n, p, s); }
static uint32_t mg(size_t n, uint64_t *p, uint64_t *s) { return xt_merge(8, 4, 4, 3, n, 1, 0, 0, 1, 1, base, 3 * n, residual, 3 * n, quantisers, 0, (const int16_t *)quantisers, 0, merged1, 3 * n, p, s); }
static uint32_t mg1(size_t n, uint64_t *p, uint64_t *s) { return xt_merge(8, 0, 0, 1, n, 0, 0, 0, 0, 0, base, n, residual, 0, quantisers, 0, (const int16_t *)quantisers, 0, merged1, n, p, s); }

/* `size` bytes of box in packets of `each`, in file order or backward, in the short form or the long one */
static size_t each, backward, lost, in_long;
static size_t made;
static void made_for(size_t size);
static uint32_t bx(size_t n, uint64_t *p, uint64_t *s) { made_for(n); return xt_box_bytes(file, file_len, 0x46494E45, 1, box1, sizeof box1, p, s); }
static uint32_t ls(size_t n, uint64_t *p, uint64_t *s) { made_for(n); return xt_list_packets(file, file_len, box1, sizeof box1, p, s); }

#define RUNS(by) \
    static uint32_t by##_w_dc(size_t n, uint64_t *p, uint64_t *s) { return by##_write_dc(3, n, full, n, other, sizeof other, p, s); } \
    static uint32_t by##_r_dc(size_t n, uint64_t *p, uint64_t *s) { return by##_read_dc(4, n, data, (n + 7) / 8, old, n, out2, n, p, s); } \
    static uint32_t by##_w_ac(size_t n, uint64_t *p, uint64_t *s) { return by##_write_ac(3, n, counts, 16, codes, 32, full, 63 * n, other, sizeof other, p, s); } \
    static uint32_t by##_r_ac(size_t n, uint64_t *p, uint64_t *s) { return by##_read_ac(4, n, counts, 16, codes, 32, coded_for(n), length_for(n), old, 63 * n, out2, 63 * n, p, s); } \
    static uint32_t by##_it(size_t n, uint64_t *p, uint64_t *s) { return by##_inverse_transform(4, n, full, 64 * n, quantisers, 64, out2, 64 * n, p, s); } \
    static uint32_t by##_po(size_t n, uint64_t *p, uint64_t *s) { return owed_by(by##_preview_owes, owed2, n, p, s); } \
    static uint32_t by##_mg(size_t n, uint64_t *p, uint64_t *s) { return by##_merge(8, 4, 4, 3, n, 1, 1, base, 3 * n, residual, 3 * n, merged2, 3 * n, p, s); } \
    static uint32_t by##_mg1(size_t n, uint64_t *p, uint64_t *s) { return by##_merge(8, 0, 0, 1, n, 0, 0, base, n, residual, 0, merged2, n, p, s); } \
    static uint32_t by##_bx(size_t n, uint64_t *p, uint64_t *s) { made_for(n); return by##_box_bytes(file, file_len, 0x46494E45, 1, box2, sizeof box2, p, s); } \
    static uint32_t by##_ls(size_t n, uint64_t *p, uint64_t *s) { made_for(n); return by##_list_packets(file, file_len, box2, sizeof box2, p, s); }
RUNS(gcc)
#ifdef BY_CLANG
RUNS(clang)
#endif

/* a number in n bytes at the file's end */
static void append(uint64_t v, int n) { while (n--) file[file_len++] = (uint8_t)(v >> 8 * n); }

/* the head of a box: 8 bytes, and 16 in the long form */
static size_t head_of(int is_long) { return is_long ? 16 : 8; }

/* a packet of FINE; in the long form LBox is 1 and the stated length stands behind the type */
static void packet(uint16_t instance, uint32_t number, int is_long, uint64_t stated, size_t len)
{
    append(0xFFEB, 2);
    append(10 + head_of(is_long) + len, 2);
    append(0x4A50, 2);
    append(instance, 2);
    append(number, 4);
    append(is_long ? 1 : stated, 4);
    append(0x46494E45, 4);
    if (is_long) append(stated, 8);
    for (size_t i = 0; i < len; i++) append(rnd(256), 1);
}

static void picture(size_t size)
{
    size_t n = size / each;
    file_len = 0;
    append(0xFFD8, 2);
    for (size_t i = 0; i < n; i++) packet(1, (uint32_t)(backward ? n - i : i + 1 + (lost && i >= n / 2)), (int)in_long, n * each + head_of((int)in_long), each);
    append(0xFFDA, 2);
}
static void made_for(size_t size) { if (made != size) { picture(size); made = size; } }

/* how xt_box_bytes grows: packets of 20 bytes, in file order, backward, and in order with one lost in the middle (7) */
static void growth(void)
{
    printf("\n| bytes of box, packets of 20 | in order, ns a byte | plain C, gcc | backward, ns a byte | plain C, gcc | one lost, ns a byte | plain C, gcc |\n|---|---|---|---|---|---|---|\n");
    each = 20;
    for (size_t size = 50000; size <= 1600000; size *= 2) {
        double ns[3][TIMES];
        for (int k = 0; k < 3; k++) {
            run by[TIMES] = {bx, gcc_bx, 0, 0};
            backward = k == 1;
            lost = k == 2;
            made = 0;
            times(ns[k], by, size);
        }
        double unit = 1e9 / (double)size;
        printf("| %zu |", size);
        for (int k = 0; k < 3; k++) printf(" %.1f | %.1f |", ns[k][OURS] * unit, ns[k][GCC] * unit);
        printf("\n");
    }
}

/* ---- damaged planes: no time is taken, only the answers are compared */

enum { TRIED = 20000, FEW = 6, ROOM = 63 * FEW };
static size_t met[29];

static void numbers_met(void)
{
    for (size_t k = 0; k < sizeof met / sizeof met[0]; k++)
        if (met[k]) printf(" %zu: %zu", k, met[k]);
    printf("\n");
}

/* the `len` bytes of a sound plane cut, or up to two of them altered: the length that is left */
static size_t damage(uint8_t *bytes, size_t len)
{
    if (len && rnd(4) == 0) len = rnd((uint32_t)len);
    for (uint32_t k = rnd(3); len && k; k--) bytes[rnd((uint32_t)len)] = (uint8_t)(rnd(3) ? rnd(256) : 0xFF);
    return len;
}

/* an answer of plain C beside ours (n1, in out1) */
static int as_ours(uint32_t n1, uint32_t n2) { return alike(n1, n2) && memcmp(out1, out2, 4 * ROOM) == 0; }

static int damaged_dc(uint8_t *bytes, size_t n)
{
    static int32_t halves[ROOM];
    for (size_t i = 0; i < n; i++) halves[i] = full[i] >> 1;
    xt_write_dc_plane(3, n, full, n, bytes, 2 * ROOM, &place1, &second1);
    size_t len = damage(bytes, (size_t)place1);
    unwritten();
    uint32_t n1 = xt_read_dc_plane(4, n, bytes, len, halves, n, out1, ROOM, &place1, &second1);
    met[n1]++;
    int same = as_ours(n1, gcc_read_dc(4, n, bytes, len, halves, n, out2, ROOM, &place2, &second2));
#ifdef BY_CLANG
    same &= as_ours(n1, clang_read_dc(4, n, bytes, len, halves, n, out2, ROOM, &place2, &second2));
#endif
    return same;
}

static int damaged_ac(uint8_t *bytes, size_t n, const int32_t *from, const int32_t *halves)
{
    /* two codes more than the writer's table, which refinement does not use (15) */
    static uint8_t more[34] = {[32] = 0x02, [33] = 0x35}, lengths[16] = {[5] = 34};
    memcpy(more, codes, 32);
    xt_write_ac_plane(3, n, counts, 16, codes, 32, from, 63 * n, bytes, 2 * ROOM, &place1, &second1);
    size_t len = damage(bytes, (size_t)place1);
    unwritten();
    uint32_t n1 = xt_read_ac_plane(4, n, lengths, 16, more, 34, bytes, len, halves, 63 * n, out1, ROOM, &place1, &second1);
    met[n1]++;
    int same = as_ours(n1, gcc_read_ac(4, n, lengths, 16, more, 34, bytes, len, halves, 63 * n, out2, ROOM, &place2, &second2));
#ifdef BY_CLANG
    same &= as_ours(n1, clang_read_ac(4, n, lengths, 16, more, 34, bytes, len, halves, 63 * n, out2, ROOM, &place2, &second2));
#endif
    return same;
}

/* 12 to 17 name a byte of the data: ours and plain C name the same */
static void damaged(void)
{
    static uint8_t bytes[2 * ROOM];
    int same = 0;
    for (int t = 0; t < TRIED; t++) {
        size_t n = 1 + rnd(FEW), at = 63 * rnd(BLOCKS - FEW);
        same += t % 4 ? damaged_ac(bytes, n, full + at, old + at) : damaged_dc(bytes, 1 + rnd(ROOM));
    }
    bad += same != TRIED;
    printf("\n%d damaged planes, %d with the same number, place, second place and values; numbers met:", TRIED, same);
    numbers_met();
}

/* ---- small files of boxes in both forms: sound, shuffled, mixed, damaged or cut; of these too only the answers are compared */

enum { SMALL = 64, TEXT = 512 };

/* A box of up to four packets, shuffled, with strangers and fill between. What is wrong: the length that all state (1, 2), a number (3), a form (4), a length (5), a packet's end (6), or nothing. */
static void small(void)
{
    static const uint64_t edges[] = {0, 1, 2, 7, 8, 15, 16, UINT32_MAX, UINT64_MAX - 15, UINT64_MAX - 7, UINT64_MAX};
    uint32_t n = 1 + rnd(4), wrong = rnd(9), which = rnd(n), numbers[4] = {0}, lens[4];
    int form = (int)rnd(2);
    uint64_t stated = head_of(form);
    for (uint32_t i = 0; i < n; i++) {
        uint32_t j = rnd(i + 1);
        numbers[i] = numbers[j];
        numbers[j] = i + 1;
        stated += lens[i] = rnd(12);
    }
    if (wrong == 1) stated = edges[rnd(sizeof edges / sizeof edges[0])];
    if (wrong == 2) stated += rnd(2) ? 8 : (uint64_t)1 << 32;
    if (wrong == 3) numbers[which] = rnd(n + 2);
    file_len = 0;
    append(0xFFD8, 2);
    for (uint32_t i = 0; i < n; i++) {
        if (rnd(4) == 0) packet(2, 1, (int)rnd(2), 16 + rnd(9), rnd(9));
        if (rnd(4) == 0) append(0xFFFFFFFF, 1 + (int)rnd(2));
        size_t at = file_len + 2;
        packet(1, numbers[i], form ^ (wrong == 4 && i == which), stated + (wrong == 5 && i == which), lens[i]);
        if (wrong == 6 && i == which) {
            size_t end = file_len - 1 - rnd(lens[i] + 12);
            file_len = at;
            append(end - at, 2);
            file_len = end;
        }
    }
    append(0xFFDA, 2);
    if (rnd(3) == 0) file_len = damage(file, file_len);
}

/* an answer of plain C beside ours (n1, in box1) */
static int as_our_box(uint32_t n1, uint32_t n2, size_t bytes) { return alike(n1, n2) && memcmp(box1, box2, bytes) == 0; }

static void untouched(size_t bytes) { memset(box2, 0x5A, bytes); }

static int small_box(size_t room)
{
    memset(box1, 0x5A, SMALL);
    untouched(SMALL);
    unwritten();
    uint32_t n1 = xt_box_bytes(file, file_len, 0x46494E45, 1, box1, room, &place1, &second1);
    met[n1]++;
    int same = as_our_box(n1, gcc_box_bytes(file, file_len, 0x46494E45, 1, box2, room, &place2, &second2), SMALL);
#ifdef BY_CLANG
    untouched(SMALL);
    same &= as_our_box(n1, clang_box_bytes(file, file_len, 0x46494E45, 1, box2, room, &place2, &second2), SMALL);
#endif
    return same;
}

static int small_listing(size_t room)
{
    memset(box1, 0x5A, TEXT);
    untouched(TEXT);
    unwritten();
    uint32_t n1 = xt_list_packets(file, file_len, box1, room, &place1, &second1);
    int same = as_our_box(n1, gcc_list_packets(file, file_len, box2, room, &place2, &second2), TEXT);
#ifdef BY_CLANG
    untouched(TEXT);
    same &= as_our_box(n1, clang_list_packets(file, file_len, box2, room, &place2, &second2), TEXT);
#endif
    return same;
}

static void small_files(void)
{
    int same = 0;
    memset(met, 0, sizeof met);
    for (int t = 0; t < TRIED; t++) {
        size_t room = rnd(8) ? SMALL : rnd(SMALL), text = rnd(8) ? TEXT : rnd(TEXT);
        small();
        same += small_box(room) & small_listing(text);
    }
    bad += same != TRIED;
    printf("\n%d small files of boxes in both forms, %d with the same number, place, second place, bytes and listing; numbers met:", TRIED, same);
    numbers_met();
}

/* ---- small writings, sound or with something wrong, of planes 0 to 6; of these too only the answers are compared */

enum { LITTLE = 512, MUCH = 1 << 17, GUARD = 8 };

/* what is lent to a writer beside the values; behind the room stand bytes that no writer may touch, up to `whole` */
typedef struct { int dc; uint32_t plane; size_t blocks, len, room, whole, counts_len, codes_len; uint8_t counts[16], codes[32]; } writing;
typedef uint32_t (*dc_writer)(uint32_t, size_t, const int32_t *, size_t, uint8_t *, size_t, uint64_t *, uint64_t *);
typedef uint32_t (*ac_writer)(uint32_t, size_t, const uint8_t *, size_t, const uint8_t *, size_t, const int32_t *, size_t, uint8_t *, size_t, uint64_t *, uint64_t *);

static int32_t lent[64 * (BLOCKS + 1)];

/* all codes, beginning at any of them; or some of these; or a bad table */
static void lend_table(writing *w)
{
    uint32_t turn = rnd(32);
    w->counts_len = 16;
    w->codes_len = 32;
    memcpy(w->counts, counts, 16);
    for (uint32_t i = 0; i < 32; i++) w->codes[i] = codes[(i + turn) % 32];
    switch (rnd(12)) {
    case 0: case 1: case 2: w->counts[5] = (uint8_t)(w->codes_len = 1 + rnd(32)); break;
    case 3: w->codes[rnd(31)] = w->codes[31]; break;
    case 4: w->counts[rnd(16)]++; break;
    case 5: w->counts_len = 15; break;
    case 6: w->counts[5] = 0; w->counts[4] = 32; break; /* the last of 32 codes of five bits is all ones */
    }
}

/* few or many zeros among new values and corrections; here and there an end of the level's range, or what is beyond it */
static void lend_values(const writing *w)
{
    int32_t high = 1 << (11 + w->plane), edges[] = {high - 1, 1 - high, -high, high, -high - 1, INT32_MAX, INT32_MIN};
    uint32_t zeros = rnd(11), strange = rnd(3) ? 0 : 1 + rnd(2);
    for (size_t i = 0; i < w->len; i++) lent[i] = rnd(10) < zeros ? 0 : (int32_t)rnd(9) - 4;
    for (; w->len && strange; strange--) lent[rnd((uint32_t)w->len)] = edges[rnd(sizeof edges / sizeof edges[0])];
}

static void draw(writing *w)
{
    static const uint8_t planes[] = {0, 1, 2, 3, 3, 3, 3, 4, 4, 4, 4, 5, 5, 6};
    w->dc = rnd(3) == 0;
    w->plane = planes[rnd(sizeof planes)];
    w->blocks = rnd(40) ? rnd(4) : BLOCKS + rnd(2);
    w->len = (w->dc ? 1 : 63) * w->blocks;
    if (rnd(8) == 0) w->len = w->len && rnd(2) ? w->len - 1 : w->len + 1;
    w->whole = w->blocks < BLOCKS ? LITTLE : MUCH;
    w->room = rnd(3) ? w->whole - GUARD : rnd((uint32_t)w->len / 3 + 3);
    lend_table(w);
    lend_values(w);
}

static uint32_t written_by(dc_writer dc, ac_writer ac, const writing *w, uint8_t *out, uint64_t *p, uint64_t *s)
{
    memset(out, 0x5A, w->whole);
    if (w->dc) return dc(w->plane, w->blocks, lent, w->len, out, w->room, p, s);
    return ac(w->plane, w->blocks, w->counts, w->counts_len, w->codes, w->codes_len, lent, w->len, out, w->room, p, s);
}

static int small_writing(const writing *w)
{
    unwritten();
    uint32_t n1 = written_by(xt_write_dc_plane, xt_write_ac_plane, w, box1, &place1, &second1);
    met[n1]++;
    int same = as_our_box(n1, written_by(gcc_write_dc, gcc_write_ac, w, box2, &place2, &second2), w->whole);
#ifdef BY_CLANG
    same &= as_our_box(n1, written_by(clang_write_dc, clang_write_ac, w, box2, &place2, &second2), w->whole);
#endif
    return same;
}

static void small_writings(void)
{
    writing w;
    int same = 0;
    memset(met, 0, sizeof met);
    for (int t = 0; t < TRIED; t++) {
        draw(&w);
        same += small_writing(&w);
    }
    bad += same != TRIED;
    printf("\n%d small writings of planes 0 to 6, %d with the same number, place, second place and destination; numbers met:", TRIED, same);
    numbers_met();
}

static void boxes_of(size_t bytes, size_t backwards, size_t longs, const char *name, size_t size)
{
    each = bytes;
    backward = backwards;
    in_long = longs;
    made = 0;
    compare(name, "bytes", size, size, bx, BOTH(bx), box1, box2, size);
}

static void listing_of(size_t longs, const char *name, size_t size)
{
    each = 20;
    backward = 0;
    in_long = longs;
    made = 0;
    compare(name, "bytes", size, size, ls, BOTH(ls), box1, box2, 20000);
}

/* Random samples go either way at every clip; steady ones are a slow slope, as a wall or a track is. */
static void merges(const char *three, const char *one, int steady)
{
    for (size_t i = 0; i < 3 * PIXELS; i++) {
        base[i] = steady ? (int32_t)(i % PIXELS / 512 + 60) : (int32_t)rnd(4096);
        residual[i] = steady ? (int32_t)(2040 + i % 16) : (int32_t)rnd(4096);
    }
    compare(three, "pixels", PIXELS, PIXELS, mg, BOTH(mg), merged1, merged2, 6 * PIXELS);
    compare(one, "pixels", PIXELS, PIXELS, mg1, BOTH(mg1), merged1, merged2, 2 * PIXELS);
}

/* every code that a plane can need, and values that are in the range of every level */
static void prepare(void)
{
    counts[5] = 32;
    for (int r = 0; r < 16; r++) { codes[2 * r] = (uint8_t)(16 * r); codes[2 * r + 1] = (uint8_t)(16 * r + 1); }
    for (int i = 0; i < 64; i++) quantisers[i] = (uint16_t)(1 + rnd(40));
    for (size_t i = 0; i < 64 * BLOCKS; i++) full[i] = rnd(10) < 7 ? 0 : (int32_t)rnd(9) - 4;
}

int main(void)
{
    prepare();
    printf("| call | ours, units/s | unit | our time / gcc -O2 | our time / clang -O3 | at twice the size | same answer |\n|---|---|---|---|---|---|---|\n");
    compare("xt_write_dc_plane, 1,024 blocks", "values", BLOCKS, BLOCKS, w_dc, BOTH(w_dc), data, other, BLOCKS / 8);
    for (size_t i = 0; i < BLOCKS; i++) old[i] = full[i] >> 1;
    w_dc(BLOCKS, &place1, &second1);
    compare("xt_read_dc_plane, 1,024 blocks", "values", BLOCKS, BLOCKS, r_dc, BOTH(r_dc), out1, out2, 4 * BLOCKS);
    for (size_t i = 0; i < 64 * BLOCKS; i++) old[i] = full[i] / 2;
    compare("xt_write_ac_plane, 1,024 blocks", "values", 63 * BLOCKS, BLOCKS, w_ac, BOTH(w_ac), data, other, 1000);
    length_for(BLOCKS);
    { uint64_t p, s; xt_write_ac_plane(3, BLOCKS / 2, counts, 16, codes, 32, full, 63 * BLOCKS / 2, halfway, sizeof halfway, &p, &s); w_ac(BLOCKS, &p, &s); }
    compare("xt_read_ac_plane, 1,024 blocks", "values", 63 * BLOCKS, BLOCKS, r_ac, BOTH(r_ac), out1, out2, 4 * 63 * BLOCKS);
    compare("xt_inverse_transform, 1,024 blocks", "values", 64 * BLOCKS, BLOCKS, it, BOTH(it), out1, out2, 4 * 64 * BLOCKS);
    for (size_t i = 0; i < 64 * BLOCKS; i++) tables[i] = (uint16_t)(1 + i * i % 251);
    compare("xt_preview_owes, 1,024 tables", "numbers", 64 * BLOCKS, BLOCKS, po, BOTH(po), owed1, owed2, sizeof owed1);
    merges("xt_merge, 3 components, both transforms, random samples", "xt_merge, 1 component, straight curve, random samples", 0);
    merges("the same, 3 components, steady samples", "the same, 1 component, steady samples", 1);
    boxes_of(60000, 0, 0, "xt_box_bytes, packets of 60,000 bytes in order", 3000000);
    boxes_of(60000, 1, 0, "xt_box_bytes, the same backward", 3000000);
    boxes_of(20, 0, 0, "xt_box_bytes, packets of 20 bytes in order", 1000000);
    boxes_of(20, 1, 0, "xt_box_bytes, the same backward", 1000000);
    boxes_of(20, 1, 0, "xt_box_bytes, 80,000 packets of 20 bytes backward", 1600000);
    boxes_of(60000, 0, 1, "xt_box_bytes, long form, packets of 60,000 bytes in order", 3000000);
    boxes_of(60000, 1, 1, "xt_box_bytes, the same backward", 3000000);
    boxes_of(20, 0, 1, "xt_box_bytes, long form, packets of 20 bytes in order", 1000000);
    boxes_of(20, 1, 1, "xt_box_bytes, the same backward", 1000000);
    listing_of(0, "xt_list_packets, packets of 20 bytes", 30000);
    listing_of(1, "xt_list_packets, long form, packets of 20 bytes", 26000);
    in_long = 0;
    growth();
    damaged();
    small_files();
    small_writings();
    printf("\n%d differ\n", bad);
    return bad != 0;
}
