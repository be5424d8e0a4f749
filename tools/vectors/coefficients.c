/* coefficients FILE: the quantised coefficients of a JPEG without subsampling, from libjpeg's own coefficient calls.
 * First line: blocks across, blocks down. Then a line for each block, 64 numbers in zigzag order; one component behind the other. */
#include <stdio.h>
#include <jpeglib.h>

static const int natural[64] = {
    0,  1,  8,  16, 9,  2,  3,  10, 17, 24, 32, 25, 18, 11, 4,  5,  12, 19, 26, 33, 40, 48, 41, 34, 27, 20, 13, 6,  7,  14, 21, 28,
    35, 42, 49, 56, 57, 50, 43, 36, 29, 22, 15, 23, 30, 37, 44, 51, 58, 59, 52, 45, 38, 31, 39, 46, 53, 60, 61, 54, 47, 55, 62, 63};

int main(int argc, char **argv)
{
    struct jpeg_decompress_struct in;
    struct jpeg_error_mgr err;
    FILE *f = argc == 2 ? fopen(argv[1], "rb") : NULL;
    if (!f) return 2;
    in.err = jpeg_std_error(&err);
    jpeg_create_decompress(&in);
    jpeg_stdio_src(&in, f);
    jpeg_read_header(&in, TRUE);
    jvirt_barray_ptr *arrays = jpeg_read_coefficients(&in);
    unsigned across = (in.image_width + 7) / 8, down = (in.image_height + 7) / 8;
    printf("%u %u\n", across, down);
    for (unsigned y = 0; y < in.num_components * down; y++) {
        JBLOCKARRAY row = (*in.mem->access_virt_barray)((j_common_ptr)&in, arrays[y / down], y % down, 1, FALSE);
        for (unsigned x = 0; x < across; x++) {
            for (int k = 0; k < 64; k++) printf("%d%c", row[0][x][natural[k]], k == 63 ? '\n' : ' ');
        }
    }
    jpeg_finish_decompress(&in);
    jpeg_destroy_decompress(&in);
    fclose(f);
    return 0;
}
