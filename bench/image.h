/* image.h: a table image with so many quarters of the most rows, for the bench programs. */
#ifndef IMAGE_H
#define IMAGE_H

#include <stddef.h>
#include <stdint.h>

static uint8_t image[36 + 8 * 2 + (16 + 64 + 64) * 16];
static size_t image_length;

static void put(uint64_t value, unsigned width)
{
    for (unsigned i = width; i-- > 0;)
        image[image_length++] = (uint8_t)(value >> 8 * i);
}

/* An id: those of a connection follow one another, or are anywhere. */
static uint32_t id_of(unsigned row, int rising)
{
    return rising ? 0x100 + row : (row + 1) * 2654435769u ^ (row * row * 40503u) << 7;
}

static void make_image(unsigned quarters, int rising)
{
    static const uint8_t bytes[4] = {2, 16, 16, 16}, most[4] = {8, 16, 64, 64};
    unsigned rows[4], offset = 36;
    put(0x00010004, 4);
    for (unsigned kind = 0; kind < 4; kind++) {
        rows[kind] = most[kind] * quarters / 4;
        put(kind + 1, 2);
        put(rows[kind], 2);
        put(offset, 4);
        offset += rows[kind] * bytes[kind];
    }
    for (unsigned i = 0; i < rows[0]; i++)
        put(i % 2 == 0 ? 0x0100 : 0x0200, 2);
    for (unsigned i = 0; i < rows[1]; i++) {
        put(i % rows[0], 1), put(i % 2, 1), put(0x0A000001 + i, 4), put(30490, 2), put(1472, 2), put(0, 2), put(1, 4);
    }
    for (unsigned i = 0; i < rows[2]; i++) {
        put(i % rows[1], 1), put(0, 1), put(1464, 2), put(id_of(i, rising), 4), put(i, 2), put(0, 2), put(1, 4);
    }
    for (unsigned i = 0; i < rows[3]; i++) {
        put(i % rows[1], 1), put(i % 2, 1), put(1464, 2), put(id_of(i, rising), 4);
        put(rising ? i / 2 : id_of(i, rising) & 0xFFFF, 2), put(10, 2), put(1, 4);
    }
}

#endif
