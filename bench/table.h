/* table.h: the table image for the C twins: where its bodies stand, its check, and the lookup of a route. */
#ifndef TABLE_H
#define TABLE_H

#include <stdbool.h>
#include <stddef.h>
#include <stdint.h>

enum { GROUP, CONNECTION, ROUTE, DESTINATION, KINDS };

#define FRONT 36
#define HEADER 8
#define ROW 16 /* bytes of a row, but of a group's */
#define LONGEST 1464

struct layout {
    const uint8_t *body[KINDS];
    size_t rows[KINDS];
};

/* Fills in the layout and gives true, or gives false and the place of what is wrong. */
bool check(const uint8_t *image, size_t image_length, struct layout *table, size_t *place);

/* Whether a connection of the table is TCP. */
static inline bool is_tcp(const struct layout *table, size_t connection)
{
    return table->body[GROUP][table->body[CONNECTION][connection * ROW] * 2] == 2;
}

/* The row number of the route for a header, or the reason of its drop. */
uint32_t look_up(const struct layout *table, size_t connection, uint32_t switches, uint32_t id, uint32_t length, bool *dropped);

/* Whether a route hands its payload out in pieces. */
static inline bool is_marked(const struct layout *table, size_t route)
{
    return table->body[ROUTE][route * ROW + 1] == 1;
}

/* One load and a swap each: the twins are for x86-64, as the library is. */
static inline uint16_t half(const uint8_t *p)
{
    uint16_t value;
    __builtin_memcpy(&value, p, sizeof value);
    return value;
}

static inline uint16_t be16(const uint8_t *p)
{
    return __builtin_bswap16(half(p));
}

static inline uint32_t word(const uint8_t *p)
{
    uint32_t value;
    __builtin_memcpy(&value, p, sizeof value);
    return value;
}

static inline uint32_t be32(const uint8_t *p)
{
    return __builtin_bswap32(word(p));
}

static inline void put_be32(uint8_t *p, uint32_t value)
{
    p[0] = (uint8_t)(value >> 24);
    p[1] = (uint8_t)(value >> 16);
    p[2] = (uint8_t)(value >> 8);
    p[3] = (uint8_t)value;
}

#endif
