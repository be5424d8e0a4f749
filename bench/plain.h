/* The plain C version of the rules: plain.c. Parameters as in include/auhowipi.h. It is built by two compilers, so each name is made by PLAIN. */
#ifndef PLAIN
#define PLAIN(name) plain_##name
#endif
#include <stddef.h>
#include <stdint.h>
uint32_t PLAIN(box_bytes)(const uint8_t *, size_t, uint32_t, uint16_t, uint8_t *, size_t, uint64_t *, uint64_t *);
uint32_t PLAIN(list_packets)(const uint8_t *, size_t, uint8_t *, size_t, uint64_t *, uint64_t *);
uint32_t PLAIN(read_dc)(uint32_t, size_t, const uint8_t *, size_t, const int32_t *, size_t, int32_t *, size_t, uint64_t *, uint64_t *);
uint32_t PLAIN(write_dc)(uint32_t, size_t, const int32_t *, size_t, uint8_t *, size_t, uint64_t *, uint64_t *);
uint32_t PLAIN(read_ac)(uint32_t, size_t, const uint8_t *, size_t, const uint8_t *, size_t, const uint8_t *, size_t, const int32_t *, size_t, int32_t *, size_t, uint64_t *, uint64_t *);
uint32_t PLAIN(write_ac)(uint32_t, size_t, const uint8_t *, size_t, const uint8_t *, size_t, const int32_t *, size_t, uint8_t *, size_t, uint64_t *, uint64_t *);
uint32_t PLAIN(inverse_transform)(uint32_t, size_t, const int32_t *, size_t, const uint16_t *, size_t, int32_t *, size_t, uint64_t *, uint64_t *);
uint32_t PLAIN(preview_owes)(uint32_t, const uint16_t *, size_t, uint32_t *, size_t, uint64_t *, uint64_t *);
uint32_t PLAIN(merge)(uint32_t, uint32_t, uint32_t, uint32_t, size_t, int, int, const int32_t *, size_t, const int32_t *, size_t, uint16_t *, size_t, uint64_t *, uint64_t *);
