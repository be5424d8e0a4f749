/* A proved reader and writer for JPEG XT finish pictures: the calls of libreader_c.a (made by `tools/library target/staticlib`).
 * Letters with numbers, as C1, name the rules of docs/RULES.md.
 *
 * C1: every call ends on every input and checks its own input. It returns a number of the table below and writes a place and
 * a second place through its last two parameters. With XT_DONE the place is the count of bytes or values written, and
 * everything past the written part of the destination keeps its contents. With any other number the whole lent destination is
 * zeros. The second place of XT_ENDED to XT_RUN is an offset in the coded data, from 0: the byte to look at.
 *
 * C2: a slice is a pointer and a length in elements. A pointer is never NULL, not even with the length 0; source and
 * destination do not overlap; `place` and `second` each point to a uint64_t of their own. Blocks and indices count from 0.
 */
#ifndef AUHOWIPI_H
#define AUHOWIPI_H

#include <stddef.h>
#include <stdint.h>

#ifdef __cplusplus
extern "C" {
#endif

/* The second place is 0 where its column is empty. The last bit is the last one asked for; its byte is the one that it came
 * from: an FF, never the 00 behind it. No call answers 23 to 27.
 *
 *   number                     meaning                                                    place                     second place */
enum {
    XT_DONE = 0,              /* done                                                      count written */
    XT_NOT_A_PICTURE = 1,     /* does not begin FF D8                                      0 */
    XT_SEGMENT = 2,           /* segment or marker broken, or no SOS                       where it was to begin */
    XT_PACKET_HEAD = 3,       /* packet head broken                                        where its segment begins */
    XT_NO_PACKET = 4,         /* no packet of this type and instance                       0 */
    XT_DISAGREE = 5,          /* packets disagree on the box's length or its form          0 */
    XT_TWICE = 6,             /* a sequence number stands twice                            the smallest such */
    XT_MISSING = 7,           /* a sequence number is missing                              smallest missing of 1..n */
    XT_TOTAL = 8,             /* payload total is not the stated length less the box head  the total */
    XT_SHORT = 9,             /* destination too short                                     length needed */
    XT_TABLE = 10,            /* code table bad                                            0 */
    XT_RANGE = 11,            /* value out of range                                        first index */
    XT_ENDED = 12,            /* data end early                                            block                     the data's length */
    XT_MARKER = 13,           /* FF without 00 after it                                    block                     where its FF stands */
    XT_NO_CODE = 14,          /* 16 bits and no code                                       block                     the last bit's byte */
    XT_CODE_UNUSED = 15,      /* code not used in refinement                               block                     the last bit's byte */
    XT_NO_PLACE = 16,         /* no place left in the block                                block                     the last bit's byte */
    XT_RUN = 17,              /* end run passes the last block                             block of its code         the last bit's byte */
    XT_PADDING = 18,          /* padding not ones, or bytes left                           bytes read */
    XT_CODE_LACKING = 19,     /* writer's table lacks a code                               the code's value */
    XT_SETTING = 20,          /* setting or count out of range, or barred by a step        0 */
    XT_LENGTH = 21,           /* a lent input's length is not what the counts ask          0 */
    XT_QUANTISER = 22,        /* quantiser entry not 1..255                                first index */
    XT_RETIRED = 28           /* level retired: plane 4 is read and not written            0 */
};

/* A short sentence for a number. */
static inline const char *xt_meaning(uint32_t number)
{
    static const char *const meanings[] = {
        "done",
        "the file does not begin FF D8",
        "a segment or marker is broken, or there is no SOS",
        "a packet's head is broken",
        "there is no packet of this type and instance",
        "packets disagree on the box's length or its form",
        "two packets claim the same sequence number",
        "a sequence number is missing",
        "the payloads do not add up to the box's length",
        "the destination is too short",
        "the code table is bad",
        "a value is out of range",
        "the data end early",
        "an FF has no 00 after it",
        "16 bits and no code",
        "a code that refinement does not use",
        "no place is left in the block",
        "an end run passes the last block",
        "the padding is not ones, or bytes are left",
        "the writer's table lacks a code",
        "a setting or count is out of range",
        "a lent input has the wrong length",
        "a quantiser entry is not 1 to 255"
    };
    if (number == XT_RETIRED) return "this level is no longer written";
    return number < sizeof meanings / sizeof meanings[0] ? meanings[number] : "no such number";
}

/* ---- boxes */

/* C3: `type` is its four bytes as a number, LPTS is 0x4C505453. The bytes of one box, assembled from its packets in any file
 * order; in a file that can be walked through, boxes of another type or instance change nothing (D6). LBox 1 and an eight-byte
 * length after the type (long boxes) are read too. Takes 128 KiB of stack, no other call takes as much. */
uint32_t xt_box_bytes(const uint8_t *file, size_t file_len, uint32_t type, uint16_t instance,
                      uint8_t *destination, size_t destination_len, uint64_t *place, uint64_t *second);

/* The listing of a file's packets as text; a file over 65,536 bytes has its text too (`answer 20 0`). */
uint32_t xt_list_packets(const uint8_t *file, size_t file_len, uint8_t *text, size_t text_len, uint64_t *place,
                         uint64_t *second);

/* ---- refinement planes, 1 to 4. DC: one value a block. AC: 63 values a block, positions 1 to 63, and a code table
 * (16 counts, and as many values). Up to 1,024 blocks. Reading takes level plane-1 to level plane; writing takes level plane.
 * Planes 1 to 3 are read and written. Plane 4 is read like them and no longer written: with up to 1,024 blocks both writers
 * answer XT_RETIRED, whatever values, table and room they are lent. */

uint32_t xt_read_dc_plane(uint32_t plane, size_t blocks, const uint8_t *data, size_t data_len, const int32_t *values,
                          size_t values_len, int32_t *destination, size_t destination_len, uint64_t *place,
                          uint64_t *second);

uint32_t xt_write_dc_plane(uint32_t plane, size_t blocks, const int32_t *values, size_t values_len, uint8_t *destination,
                           size_t destination_len, uint64_t *place, uint64_t *second);

uint32_t xt_read_ac_plane(uint32_t plane, size_t blocks, const uint8_t *counts, size_t counts_len, const uint8_t *codes,
                          size_t codes_len, const uint8_t *data, size_t data_len, const int32_t *values, size_t values_len,
                          int32_t *destination, size_t destination_len, uint64_t *place, uint64_t *second);

uint32_t xt_write_ac_plane(uint32_t plane, size_t blocks, const uint8_t *counts, size_t counts_len, const uint8_t *codes,
                           size_t codes_len, const int32_t *values, size_t values_len, uint8_t *destination,
                           size_t destination_len, uint64_t *place, uint64_t *second);

/* ---- dequantising and the inverse transform: 64 values a block in zigzag order, 64 quantisers in the same order;
 * samples of a block row by row, not clipped. */
uint32_t xt_inverse_transform(uint32_t refinement, size_t blocks, const int32_t *values, size_t values_len,
                              const uint16_t *quantisers, size_t quantisers_len, int32_t *destination,
                              size_t destination_len, uint64_t *place, uint64_t *second);

/* ---- what a preview owes: 64 numbers, row by row. Each says how far the transform's sample at this place of a block, times
 * 2^left, can be from the full picture's, where `left` planes, 0 to 4, are not yet read, whatever those planes hold. The
 * quantisers are the transform's. Refused in this order: `left` above 4 (XT_SETTING); other than 64 quantisers (XT_LENGTH);
 * one that is not 1 to 255 (XT_QUANTISER); room for fewer than 64 numbers (XT_SHORT). */
uint32_t xt_preview_owes(uint32_t left, const uint16_t *quantisers, size_t quantisers_len, uint32_t *destination,
                         size_t destination_len, uint64_t *place, uint64_t *second);

/* ---- the merge to 9 to 16 bits. Component planes follow one another. What is not used is empty.
 * C5: base_transform, residual_transform: 0 identity, 1 the transform. curve: 0 straight, 1 the lent table, 2 inverse sRGB.
 * matrix_on, residual_on: 0 absent, 1 present.
 * M10, M16: the base's transform takes 2^(7+rh) from Cb and Cr, the residual's takes 2^(7+rb). */
uint32_t xt_merge(uint32_t rb, uint32_t rh, uint32_t rr, uint32_t components, size_t pixels, uint32_t base_transform,
                  uint32_t curve, uint32_t matrix_on, uint32_t residual_on, uint32_t residual_transform, const int32_t *base,
                  size_t base_len, const int32_t *residual, size_t residual_len, const uint16_t *table, size_t table_len,
                  const int16_t *matrix, size_t matrix_len, uint16_t *destination, size_t destination_len, uint64_t *place,
                  uint64_t *second);

#ifdef __cplusplus
}
#endif

#endif
