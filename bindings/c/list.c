/* list FILE: lists a picture's packets, then reads its LPTS, TONE and FINE boxes and says what each call answered. */
#include <stdio.h>
#include <stdlib.h>
#include "auhowipi.h"

enum { MOST = 1 << 26 };

static void one_box(const uint8_t *file, size_t size, const char *name, uint16_t instance)
{
    static uint8_t box[1 << 20];
    /* the second place is the byte of a plane's data to look at: 0 for a box and a listing */
    uint64_t place, second;
    uint32_t type = (uint32_t)name[0] << 24 | (uint32_t)name[1] << 16 | (uint32_t)name[2] << 8 | (uint32_t)name[3];
    uint32_t number = xt_box_bytes(file, size, type, instance, box, sizeof box, &place, &second);
    printf("%s %u: %s (%u, place %llu)\n", name, instance, xt_meaning(number), number, (unsigned long long)place);
}

/* the file's bytes: their count, or MOST + 1 where there are more than MOST or they can't be read to the end */
static size_t contents(const char *path, uint8_t *file)
{
    FILE *f = fopen(path, "rb");
    if (!f) return MOST + 1;
    size_t size = fread(file, 1, MOST, f);
    int whole = size < MOST ? feof(f) && !ferror(f) : fgetc(f) == EOF && !ferror(f);
    fclose(f);
    return whole ? size : MOST + 1;
}

int main(int argc, char **argv)
{
    static uint8_t file[MOST], text[1 << 20];
    uint64_t place, second;
    if (argc != 2) {
        fprintf(stderr, "usage: list FILE\n");
        return 2;
    }
    size_t size = contents(argv[1], file);
    if (size > MOST) {
        fprintf(stderr, "list: %s can't be read whole (at most %d bytes)\n", argv[1], MOST);
        return 2;
    }
    if (xt_list_packets(file, size, text, sizeof text, &place, &second) == XT_DONE) fwrite(text, 1, (size_t)place, stdout);
    one_box(file, size, "LPTS", 1);
    one_box(file, size, "TONE", 1);
    one_box(file, size, "FINE", 0);
    one_box(file, size, "FINE", 1);
    return 0;
}
