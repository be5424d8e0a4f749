/* libjpeg CUT WHOLE SCAN BLOCKS: libjpeg-turbo's reading of one AC refinement scan beside ours. CUT is a progressive grey JPEG that ends before the scan, WHOLE
 * one that ends behind it; libjpeg's time for the scan is the difference of its coefficient calls on the two. SCAN is the scan's table and data. */
#include <stdio.h>
#include <stdlib.h>
#include <string.h>
#include <time.h>
#include <jpeglib.h>
#include "auhowipi.h"

static double now(void) { struct timespec t; clock_gettime(CLOCK_MONOTONIC, &t); return (double)t.tv_sec + (double)t.tv_nsec * 1e-9; }
static unsigned char *slurp(const char *path, size_t *len)
{
    FILE *f = fopen(path, "rb");
    unsigned char *p = malloc(1 << 22);
    *len = fread(p, 1, 1 << 22, f);
    fclose(f);
    return p;
}
static int32_t values[64 * 1024], out[64 * 1024];
static const int natural[64] = {
    0,  1,  8,  16, 9,  2,  3,  10, 17, 24, 32, 25, 18, 11, 4,  5,  12, 19, 26, 33, 40, 48, 41, 34, 27, 20, 13, 6,  7,  14, 21, 28,
    35, 42, 49, 56, 57, 50, 43, 36, 29, 22, 15, 23, 30, 37, 44, 51, 58, 59, 52, 45, 38, 31, 39, 46, 53, 60, 61, 54, 47, 55, 62, 63};

/* the coefficients, AC values halved down by `shift` into `values` where asked */
static void coefficients(const unsigned char *jpeg, size_t len, int shift)
{
    struct jpeg_decompress_struct in;
    struct jpeg_error_mgr err;
    in.err = jpeg_std_error(&err);
    jpeg_create_decompress(&in);
    jpeg_mem_src(&in, jpeg, len);
    jpeg_read_header(&in, TRUE);
    jvirt_barray_ptr *arrays = jpeg_read_coefficients(&in);
    if (shift >= 0) {
        size_t n = 0;
        for (unsigned y = 0; y < (in.image_height + 7) / 8; y++) {
            JBLOCKARRAY row = (*in.mem->access_virt_barray)((j_common_ptr)&in, arrays[0], y, 1, FALSE);
            for (unsigned x = 0; x < (in.image_width + 7) / 8; x++)
                for (int k = 1; k < 64; k++) values[n++] = row[0][x][natural[k]] / (1 << shift);
        }
    }
    jpeg_finish_decompress(&in);
    jpeg_destroy_decompress(&in);
}

static double best(const unsigned char *jpeg, size_t len)
{
    double least = 1e9;
    for (int t = 0; t < 60; t++) {
        double begin = now();
        coefficients(jpeg, len, -1);
        double spent = now() - begin;
        if (spent < least) least = spent;
    }
    return least;
}

int main(int argc, char **argv)
{
    if (argc != 5) return 2;
    size_t cut_len, whole_len, scan_len, blocks = (size_t)atoi(argv[4]);
    unsigned char *cut = slurp(argv[1], &cut_len), *whole = slurp(argv[2], &whole_len), *scan = slurp(argv[3], &scan_len);
    size_t codes = 0;
    for (int i = 0; i < 16; i++) codes += scan[i];
    coefficients(cut, cut_len, 1);
    uint64_t place = 0, second = 0;
    uint32_t number = 0;
    double least = 1e9;
    for (int t = 0; t < 60; t++) {
        double begin = now();
        number = xt_read_ac_plane(1, blocks, scan, 16, scan + 16, codes, scan + 16 + codes, scan_len - 16 - codes, values, 63 * blocks, out, 63 * blocks, &place, &second);
        double spent = now() - begin;
        if (spent < least) least = spent;
    }
    coefficients(whole, whole_len, 0);
    int same = number == 0 && memcmp(values, out, 4 * 63 * blocks) == 0;
    double theirs = best(whole, whole_len) - best(cut, cut_len);
    printf("an AC refinement scan of %zu blocks, %zu bytes: ours %.0f us, libjpeg-turbo %.0f us, ratio %.1f, same values: %s\n", blocks, scan_len - 16 - codes, least * 1e6, theirs * 1e6, least / theirs,
           same ? "yes" : "NO");
    return !same;
}
