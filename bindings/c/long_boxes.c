/* long_boxes: boxes whose LBox is 1, with an eight-byte length behind the type. Each gives the bytes of the short form or its refusal; exits 1 where one does not. */
#include <stdio.h>
#include <string.h>
#include "auhowipi.h"

static uint8_t file[200];
static size_t size;
static int bad;

static void put(uint64_t v, int n) { while (n--) file[size++] = (uint8_t)(v >> 8 * n); }

static void begin(void) { size = 0; put(0xFFD8, 2); }

/* a packet of LPTS, instance 1; `form` is 8, the bytes of a box's head in the short form, or 16 in the long one */
static void packet(int form, uint32_t number, uint64_t stated, const char *payload)
{
    size_t len = strlen(payload);
    put(0xFFEB, 2);
    put(10 + (uint64_t)form + len, 2);
    put(0x4A500001, 4);
    put(number, 4);
    put(form == 16 ? 1 : stated, 4);
    put(0x4C505453, 4);
    if (form == 16) put(stated, 8);
    memcpy(file + size, payload, len);
    size += len;
}

/* what the file gives: with XT_DONE the bytes 9.58, else zeros */
static void gives(const char *name, uint32_t number, uint64_t place)
{
    uint8_t box[6], done[] = "9.58..", zeros[6] = {0};
    uint64_t at, second;
    put(0xFFDA, 2);
    memset(box, '.', sizeof box);
    uint32_t got = xt_box_bytes(file, size, 0x4C505453, 1, box, sizeof box, &at, &second);
    int right = got == number && at == place && second == 0 && memcmp(box, number == XT_DONE ? done : zeros, sizeof box) == 0;
    if (!right) printf("%s: %s (%u, place %llu)\n", name, xt_meaning(got), got, (unsigned long long)at);
    bad += !right;
}

int main(void)
{
    begin(), packet(8, 1, 12, "9.58"), gives("the short form", XT_DONE, 4);
    begin(), packet(16, 1, 20, "9.58"), gives("one packet", XT_DONE, 4);
    begin(), packet(16, 2, 20, "58"), packet(16, 1, 20, "9."), gives("two packets out of order", XT_DONE, 4);
    begin(), packet(16, 1, 20, "9."), packet(8, 2, 12, "58"), gives("two forms", XT_DISAGREE, 0);
    begin(), packet(16, 1, 20, "9."), packet(8, 2, 20, "58"), gives("two forms, equal numbers", XT_DISAGREE, 0);
    begin(), packet(16, 1, UINT64_MAX, "9.58"), gives("the largest length", XT_TOTAL, 4);
    begin(), packet(16, 1, 15, "9.58"), gives("a length below 16", XT_PACKET_HEAD, 2);
    begin(), packet(8, 1, 1, "1234567"), gives("a segment of 25 bytes", XT_PACKET_HEAD, 2);
    return bad != 0;
}
