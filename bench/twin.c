/* twin.c: what soad.h offers, written in plain C by the same rules: same checks, same order, same answers. */
#include "twin.h"

#include "system.h"
#include "table.h"

uint32_t twin_table_check(const uint8_t *image, size_t image_length, size_t *place)
{
    struct layout table;
    size_t bad;
    if (check(image, image_length, &table, &bad))
        return 0;
    *place = bad;
    return 1;
}

uint32_t twin_frame(uint32_t id, const uint8_t *payload, size_t payload_length, uint8_t *out, size_t out_length)
{
    if (payload_length > LONGEST)
        return 7;
    if (out_length < HEADER + payload_length)
        return 9;
    put_be32(out, id);
    put_be32(out + 4, (uint32_t)payload_length);
    memcpy(out + HEADER, payload, payload_length);
    return 0;
}

uint32_t twin_frame_loop(uint32_t id, const uint8_t *payload, size_t payload_length, uint8_t *out, size_t out_length)
{
    if (payload_length > LONGEST)
        return 7;
    if (out_length < HEADER + payload_length)
        return 9;
    put_be32(out, id);
    put_be32(out + 4, (uint32_t)payload_length);
    for (size_t i = 0; i < payload_length; i++)
        out[HEADER + i] = payload[i];
    return 0;
}

uint32_t twin_walk(const uint8_t *image, size_t image_length, size_t connection, uint32_t switches, const uint8_t *datagram,
                   size_t datagram_length, size_t place, size_t *next, uint32_t *kind, uint32_t *number, uint32_t *id,
                   uint32_t *length, size_t *at)
{
    struct layout table;
    size_t bad, left = datagram_length - place;
    bool dropped = true;
    if (!check(image, image_length, &table, &bad))
        return 1;
    if (connection >= table.rows[CONNECTION])
        return 2;
    const uint8_t *row = table.body[CONNECTION] + connection * ROW;
    if (table.body[GROUP][row[0] * 2] == 2 || place > datagram_length)
        return 3;
    *next = datagram_length;
    *number = *id = *length = 0;
    *at = 0;
    *kind = left == 0 ? 0 : 2;
    if (left == 0)
        return 0;
    *number = 23;
    if (left < HEADER)
        return 0;
    *id = be32(datagram + place);
    *length = be32(datagram + place + 4);
    if (*length > left - HEADER)
        return 0;
    *number = look_up(&table, connection, switches, *id, *length, &dropped);
    *next = place + HEADER + *length;
    if (!dropped) {
        *kind = 1;
        *at = place + HEADER;
    }
    return 0;
}
