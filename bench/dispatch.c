/* dispatch.c: an event by its number and its body, and its answer written out: docs/EVENTS.md. */
#include "events.h"
#include "system.h"
#include "table.h"

static uint8_t *put(uint8_t *to, uint64_t value, unsigned width)
{
    for (unsigned i = width; i-- > 0; value >>= 8)
        to[i] = (uint8_t)value;
    return to + width;
}

/* An address: family 4, twelve zeros and four bytes, a port. */
static struct remote address(const uint8_t *at)
{
    return (struct remote){.address = be32(at + 13), .port = be16(at + 17)};
}

static uint8_t *put_address(uint8_t *to, struct remote remote)
{
    to = put(to, 4, 1);
    memset(to, 0, 12);
    return put(put(to + 12, remote.address, 4), remote.port, 2);
}

/* A refusal with the destination that it names, or 0; else 0, and a value of so many bytes. */
static size_t answered(uint8_t *out, uint32_t answer, size_t named, uint64_t value, unsigned width)
{
    uint8_t *to = put(out, answer, 2);
    return (size_t)((answer != 0 ? put(to, named, 4) : put(to, value, width)) - out);
}

static size_t plain(uint8_t *out, uint32_t answer)
{
    return answered(out, answer, 0, 0, 0);
}

static size_t walk(const struct lent *lent, const uint8_t *body, uint8_t *out)
{
    struct outcome met = {0};
    const uint8_t *datagram = body + 10;
    uint32_t answer = twin_walk_event(lent, body[1], datagram, be32(body + 6), be32(body + 2), &met);
    if (answer != 0)
        return plain(out, answer);
    uint8_t *to = put(put(put(put(out, 0, 2), met.read, 4), met.kind, 1), met.number, 1);
    to = put(put(to, met.id, 4), met.length, 4);
    return (size_t)((met.kind == PDU ? put(to, (size_t)(met.payload - datagram), 4) : to) - out);
}

static size_t take_waiting(const struct lent *lent, const uint8_t *body, uint8_t *out)
{
    size_t count, room = be32(body + 2);
    struct remote remote;
    uint8_t *bytes = out + 2 + 4 + 19;
    uint32_t answer = twin_take_waiting(lent, body[1], bytes, room < 1472 ? room : 1472, &count, &remote);
    if (answer != 0)
        return plain(out, answer);
    put_address(put(put(out, 0, 2), count, 4), remote);
    return (size_t)(bytes - out) + count;
}

static size_t transmit(const struct lent *lent, const uint8_t *body, uint8_t *out)
{
    size_t refused_at = 0;
    uint32_t answer = twin_transmit(lent, be16(body + 1), body + 7, be32(body + 3), &refused_at);
    return answered(out, answer, refused_at, 0, 0);
}

size_t twin_event(const struct lent *lent, unsigned number, const uint8_t *body, uint8_t *out)
{
    uint32_t answer, value = 0;
    uint8_t met = 0;
    bool failed = false;
    switch (number) {
    case 0:
        return twin_ticks(lent, be32(body), out);
    case 1:
        return plain(out, twin_open(lent, body[1]));
    case 2:
        return plain(out, twin_close(lent, body[1]));
    case 3:
        return plain(out, twin_connected(lent, body[1]));
    case 4:
        answer = twin_lost(lent, body[1], &failed);
        return answered(out, answer, 0, failed, 1);
    case 5:
        return plain(out, twin_set_remote(lent, body[1], address(body + 2)));
    case 6:
        return plain(out, twin_switch(lent, body[1], body[2], body[3] == 1));
    case 7:
        return twin_segment(lent, body[1], body + 6, be32(body + 2), out);
    case 8:
        return walk(lent, body, out);
    case 9:
        return take_waiting(lent, body, out);
    case 10:
        answer = twin_datagram(lent, body[1], address(body + 2), &met);
        return answered(out, answer, 0, met, 1);
    case 11:
        answer = twin_accept(lent, body[1], address(body + 2), &met);
        return answered(out, answer, 0, met, 1);
    case 12:
        return transmit(lent, body, out);
    case 13:
        return plain(out, twin_switch_all(lent, body[1], body[2] == 1));
    case 14:
        answer = twin_read_count(lent, body[1], &value);
        return answered(out, answer, 0, value, 4);
    case 15:
        answer = twin_read_and_clear(lent, body[1], &value);
        return answered(out, answer, 0, value, 4);
    case 16:
        return plain(out, twin_cancel(lent, body[1]));
    default:
        die("twin_event: there is no such event");
    }
}

/* ---- when a body fits its event */

static bool is_plain(const uint8_t *body, size_t length, size_t n)
{
    return length == n && body[0] == 0;
}

/* The length before the bytes that end the body, at a place. */
static bool is_counted(const uint8_t *body, size_t length, size_t at)
{
    return length >= at + 4 && length <= 4096 && body[0] == 0 && be32(body + at) + at + 4 == length;
}

static bool is_addressed(const uint8_t *body, size_t length)
{
    return is_plain(body, length, 21) && body[2] == 4 && (word(body + 3) | word(body + 7) | word(body + 11)) == 0;
}

static bool fits(unsigned number, const uint8_t *body, size_t length)
{
    switch (number) {
    case 0:
        return length == 4;
    case 5:
    case 10:
    case 11:
        return is_addressed(body, length);
    case 6:
        return is_plain(body, length, 4) && body[3] <= 1;
    case 7:
        return is_counted(body, length, 2);
    case 8:
        return is_counted(body, length, 6);
    case 9:
        return is_plain(body, length, 6);
    case 12:
        return is_counted(body, length, 3);
    case 13:
        return is_plain(body, length, 3) && body[2] <= 1;
    default:
        return number <= 16 && is_plain(body, length, 2);
    }
}

size_t twin_dispatch(const struct lent *lent, unsigned number, const uint8_t *body, size_t length, uint8_t *out, size_t room)
{
    return room >= 16384 && fits(number, body, length) ? twin_event(lent, number, body, out) : 0;
}
