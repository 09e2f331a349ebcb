/* table.c: the check of the table image and the lookup of a route, in plain C by docs/RULES.md. */
#include "table.h"

#include "system.h"

static const uint16_t most_rows[KINDS] = {8, 16, 64, 64};
static const uint8_t row_bytes[KINDS] = {2, ROW, ROW, ROW};

/* Rows met so far, by a hash of their key: each head is the last row with its hash (its number and 1 more), and each row names
 * the one before it with the same hash. So a row is compared with few others. */
struct met {
    uint8_t head[128], before[64];
};

static bool good_group(const uint8_t *row)
{
    uint16_t both = be16(row);
    return both == 0x0100 || both == 0x0200;
}

/* A connection with an alive limit is not TCP. */
static bool good_connection(const uint8_t *row, const struct layout *table)
{
    uint16_t send_size = be16(row + 8);
    return row[0] < table->rows[GROUP] && row[1] <= 1 && send_size >= 8 && send_size <= 1472 &&
           (be16(row + 10) == 0 || table->body[GROUP][row[0] * 2] != 2);
}

/* Connection, mark and longest payload as one word. A marked row's connection is TCP. */
static bool good_route(const uint8_t *row, const struct layout *table)
{
    uint32_t head = be32(row), behind = head & 0xFFFFFF;
    if (head >> 24 >= table->rows[CONNECTION] || be16(row + 10) != 0)
        return false;
    return behind <= LONGEST || (behind >= 0x010000 && behind <= 0x010000 + LONGEST && is_tcp(table, head >> 24));
}

/* The same with the trigger in the mark's place. A send size is at most 1,472, so what fits it with 8 more is at most LONGEST. */
static bool good_destination(const uint8_t *row, const struct layout *table)
{
    uint32_t head = be32(row);
    size_t connection = head >> 24;
    return connection < table->rows[CONNECTION] && (head & 0xFE0000) == 0 &&
           (head & 0xFFFF) + 8 <= be16(table->body[CONNECTION] + connection * ROW + 8);
}

/* Adds row i of a body, unless an earlier row has the same connection and the same width bytes at a place of the row. */
static inline bool add(struct met *met, const uint8_t *body, size_t i, uint32_t key, size_t at, size_t width)
{
    const uint8_t *row = body + i * ROW;
    uint8_t *head = &met->head[key * 0x9E3779B1u >> 25];
    for (size_t other = *head; other != 0; other = met->before[other - 1]) {
        const uint8_t *earlier = body + (other - 1) * ROW;
        if (earlier[0] == row[0] && memcmp(earlier + at, row + at, width) == 0)
            return false;
    }
    met->before[i] = *head;
    *head = (uint8_t)(i + 1);
    return true;
}

static bool add_route(struct met *met, const uint8_t *body, size_t i)
{
    const uint8_t *row = body + i * ROW;
    return add(met, body, i, word(row + 4) ^ row[0] * 0x01000193u, 4, 4);
}

static bool add_destination(struct met *met, const uint8_t *body, size_t i)
{
    const uint8_t *row = body + i * ROW;
    return add(met, body, i, (uint32_t)row[0] << 16 | half(row + 8), 8, 2);
}

/* The place of the first bad row; 0 when all are good. */
static size_t bad_row(const uint8_t *image, const struct layout *table)
{
    const uint8_t *row = table->body[GROUP];
    for (size_t i = 0; i < table->rows[GROUP]; i++, row += 2)
        if (!good_group(row))
            return (size_t)(row - image);
    for (size_t i = 0; i < table->rows[CONNECTION]; i++, row += ROW)
        if (!good_connection(row, table))
            return (size_t)(row - image);
    if (table->rows[ROUTE] + table->rows[DESTINATION] == 0)
        return 0;
    struct met routes, destinations;
    memset(routes.head, 0, sizeof routes.head);
    memset(destinations.head, 0, sizeof destinations.head);
    for (size_t i = 0; i < table->rows[ROUTE]; i++, row += ROW)
        if (!good_route(row, table) || !add_route(&routes, table->body[ROUTE], i))
            return (size_t)(row - image);
    for (size_t i = 0; i < table->rows[DESTINATION]; i++, row += ROW)
        if (!good_destination(row, table) || !add_destination(&destinations, table->body[DESTINATION], i))
            return (size_t)(row - image);
    return 0;
}

bool check(const uint8_t *image, size_t image_length, struct layout *table, size_t *place)
{
    size_t offset = FRONT;
    *place = 0;
    if (image_length < FRONT || be32(image) != 0x00010004)
        return false;
    for (size_t kind = 0; kind < KINDS; kind++) {
        const uint8_t *entry = image + 4 + 8 * kind;
        uint32_t rows = be32(entry) - (uint32_t)((kind + 1) << 16); /* kind and row count as one number */
        if (rows > most_rows[kind] || be32(entry + 4) != offset) {
            *place = (size_t)(entry - image);
            return false;
        }
        table->body[kind] = image + offset;
        table->rows[kind] = (uint16_t)rows;
        offset += (size_t)rows * row_bytes[kind];
    }
    if (image_length != offset) {
        *place = 2;
        return false;
    }
    *place = bad_row(image, table);
    return *place == 0;
}

/* The row of a connection and an id, or the end of the rows. The id is compared as it stands, and before the connection: ids differ more
 * often. */
static const uint8_t *find(const uint8_t *row, const uint8_t *end, size_t connection, uint32_t id)
{
    uint32_t key = __builtin_bswap32(id);
    for (; row != end; row += ROW)
        if (word(row + 4) == key && row[0] == connection)
            return row;
    return end;
}

uint32_t look_up(const struct layout *table, size_t connection, uint32_t switches, uint32_t id, uint32_t length, bool *dropped)
{
    const uint8_t *rows = table->body[ROUTE], *end = rows + table->rows[ROUTE] * ROW;
    const uint8_t *row = find(rows, end, connection, id);
    *dropped = true;
    if (row == end)
        return 20;
    uint32_t groups = be32(row + 12);
    if (groups != 0 && (groups & switches) == 0)
        return 21;
    if (row[1] == 0 && length > be16(row + 2))
        return 22;
    *dropped = false;
    return (uint32_t)((row - rows) / ROW);
}
