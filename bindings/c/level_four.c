/* level_four: plane 4 is read and not written. Each call gives its bytes or values or its refusal; exits 1 where one does not. */
#include <stdio.h>
#include <string.h>
#include "auhowipi.h"

enum { ROOM = 9, MANY = 63 * 1025 };

/* within level 3, as DC values of three blocks and as AC values; and one beyond level 4 */
static const int32_t low[MANY] = {16383, -16384, 5}, one[MANY] = {1}, high[MANY] = {32768};
static const uint8_t counts[16] = {0, 3}, codes[3] = {0x00, 0x01, 0xF0}, twice[3] = {0x00, 0x01, 0x01};
static uint64_t place, second;
static int bad;

static void is(const char *name, int right, uint32_t got)
{
    if (!right) printf("%s: %s (%u, place %llu)\n", name, xt_meaning(got), got, (unsigned long long)place);
    bad += !right;
}

/* what a writing into sevens left: with XT_DONE this one byte, else zeros in the room that was lent */
static void left(const char *name, uint32_t got, uint32_t number, uint8_t byte, const uint8_t *out, size_t room)
{
    uint8_t wanted[ROOM];
    memset(wanted, 7, ROOM);
    if (number == XT_DONE) wanted[0] = byte;
    else memset(wanted, 0, room);
    is(name, got == number && place == (number == XT_DONE) && second == 0 && memcmp(out, wanted, ROOM) == 0, got);
}

static void dc(const char *name, uint32_t plane, size_t blocks, const int32_t *values, size_t len, size_t room, uint32_t number)
{
    uint8_t out[ROOM];
    memset(out, 7, ROOM);
    place = second = 99;
    uint32_t got = xt_write_dc_plane(plane, blocks, values, len, out, room, &place, &second);
    left(name, got, number, 0xBF, out, room);
}

static void ac(const char *name, uint32_t plane, size_t blocks, const uint8_t *table, const int32_t *values, size_t len, size_t room, uint32_t number)
{
    uint8_t out[ROOM];
    memset(out, 7, ROOM);
    place = second = 99;
    uint32_t got = xt_write_ac_plane(plane, blocks, counts, 16, table, 3, values, len, out, room, &place, &second);
    left(name, got, number, 0x67, out, room);
}

/* BF is the bits 1, 0, 1 and padding. 51 is 01 0 for the new value, 1 for the correction before it, 00, 0 for the one behind, padding. */
static void stored(void)
{
    static const uint8_t dc_data[] = {0xBF}, ac_data[] = {0x51};
    static const int32_t dc_halves[] = {16383, -16384, 2}, dc_full[] = {32767, -32768, 5};
    static const int32_t ac_halves[63] = {16383, 0, -16383}, ac_full[63] = {32767, -1, -32766};
    int32_t out[63];
    uint32_t got = xt_read_dc_plane(4, 3, dc_data, 1, dc_halves, 3, out, 63, &place, &second);
    is("a stored DC plane", got == XT_DONE && place == 3 && second == 0 && memcmp(out, dc_full, sizeof dc_full) == 0, got);
    got = xt_read_ac_plane(4, 1, counts, 16, codes, 3, ac_data, 1, ac_halves, 63, out, 63, &place, &second);
    is("a stored AC plane", got == XT_DONE && place == 63 && second == 0 && memcmp(out, ac_full, sizeof ac_full) == 0, got);
}

/* no call answers 23 to 27 */
static void in_words(void)
{
    for (uint32_t n = 23; n < 30; n++) is("in words", strcmp(xt_meaning(n), n == XT_RETIRED ? "this level is no longer written" : "no such number") == 0, n);
}

int main(void)
{
    dc("DC, plane 3", 3, 3, low, 3, ROOM, XT_DONE);
    dc("DC, plane 4", 4, 3, low, 3, ROOM, XT_RETIRED);
    dc("DC, no blocks", 4, 0, low, 0, ROOM, XT_RETIRED);
    dc("DC, a wrong length", 4, 3, low, 2, ROOM, XT_RETIRED);
    dc("DC, out of range", 4, 3, high, 3, ROOM, XT_RETIRED);
    dc("DC, no room", 4, 3, low, 3, 0, XT_RETIRED);
    dc("DC, 1,024 blocks", 4, 1024, low, 1024, ROOM, XT_RETIRED);
    dc("DC, 1,025 blocks", 4, 1025, low, 1025, ROOM, XT_SETTING);
    dc("DC, plane 5", 5, 3, low, 3, ROOM, XT_SETTING);
    ac("AC, plane 3", 3, 1, codes, one, 63, ROOM, XT_DONE);
    ac("AC, plane 4", 4, 1, codes, one, 63, ROOM, XT_RETIRED);
    ac("AC, no blocks", 4, 0, codes, one, 0, ROOM, XT_RETIRED);
    ac("AC, a wrong length", 4, 1, codes, one, 62, ROOM, XT_RETIRED);
    ac("AC, a bad table", 4, 1, twice, one, 63, ROOM, XT_RETIRED);
    ac("AC, out of range", 4, 1, codes, high, 63, ROOM, XT_RETIRED);
    ac("AC, no room", 4, 1, codes, one, 63, 0, XT_RETIRED);
    ac("AC, 1,024 blocks", 4, 1024, codes, one, 63 * 1024, ROOM, XT_RETIRED);
    ac("AC, 1,025 blocks", 4, 1025, codes, one, MANY, ROOM, XT_SETTING);
    ac("AC, plane 5", 5, 1, codes, one, 63, ROOM, XT_SETTING);
    stored();
    in_words();
    return bad != 0;
}
