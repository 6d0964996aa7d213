/* Lays a picture over another with pixman, so many times: WIDTH HEIGHT TIMES. Prints the sum of the bytes. */
#include <pixman.h>
#include <stdint.h>
#include <stdio.h>
#include <stdlib.h>

static pixman_image_t *picture(int width, int height, uint32_t pixel)
{
    uint32_t *bits = malloc(4u * width * height);
    if (bits == NULL)
        exit(1);
    for (int i = 0; i < width * height; i++)
        bits[i] = pixel;
    return pixman_image_create_bits(PIXMAN_a8r8g8b8, width, height, bits, 4 * width);
}

int main(int argc, char **argv)
{
    if (argc != 4)
        return 2;
    int width = atoi(argv[1]), height = atoi(argv[2]);
    long times = atol(argv[3]);
    pixman_image_t *src = picture(width, height, 0x40404040), *dst = picture(width, height, 0xffffffff);
    for (long turn = 0; turn < times; turn++)
        pixman_image_composite32(PIXMAN_OP_OVER, src, NULL, dst, 0, 0, 0, 0, 0, 0, width, height);
    uint64_t sum = 0;
    uint8_t *bytes = (uint8_t *)pixman_image_get_data(dst);
    for (long i = 0; i < 4L * width * height; i++)
        sum += bytes[i];
    printf("%lu\n", (unsigned long)sum);
    return 0;
}
