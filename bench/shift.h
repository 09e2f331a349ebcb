/* shift.h: the recording of a mixed shift of ten entries under a table of image.h, for the bench programs: a datagram that arrives and is walked,
 * a transmit that is taken from both its destinations, a segment with a whole PDU, one cut in two, and a read count. After the ten the state
 * is what it was before them, so that a shift may be as long as one likes. */
#ifndef SHIFT_H
#define SHIFT_H

#include "image.h"

enum { SHIFT_ENTRIES = 10 };

struct shift {
    uint8_t *row, *body;
};

static void spell(uint8_t **to, uint64_t value, unsigned width)
{
    for (unsigned i = width; i-- > 0;)
        *(*to)++ = (uint8_t)(value >> 8 * i);
}

/* Ends the entry whose body began at `from`. */
static void record(struct shift *s, const uint8_t *from, unsigned event)
{
    spell(&s->row, 0, 4), spell(&s->row, event, 2), spell(&s->row, 0, 2), spell(&s->row, (uint64_t)(s->body - from), 4);
}

static void address(struct shift *s, unsigned connection)
{
    spell(&s->body, 4, 1), spell(&s->body, 0, 8), spell(&s->body, 0, 4), spell(&s->body, 0x0A000001 + connection, 4), spell(&s->body, 30490, 2);
}

/* A frame of two bytes, from one byte of it to another. */
static void frame(struct shift *s, unsigned row, unsigned from, unsigned end)
{
    uint8_t whole[10] = {0}, *to = whole;
    spell(&to, id_of(row, 1), 4), spell(&to, 2, 4), spell(&to, 180, 2);
    for (unsigned i = from; i < end; i++)
        *s->body++ = whole[i];
}

/* What a walk or a take met at this route, and where its payload stood. */
static void met(struct shift *s, unsigned route, int taken, unsigned place)
{
    spell(&s->body, 1, 1), spell(&s->body, route, 1), spell(&s->body, id_of(route, 1), 4), spell(&s->body, 2, 4);
    spell(&s->body, place, taken ? 5 : 4);
}

static void segment(struct shift *s, unsigned connection, unsigned route, unsigned from, unsigned end)
{
    const uint8_t *body = s->body;
    spell(&s->body, connection, 2), spell(&s->body, end - from, 4), frame(s, route, from, end);
    spell(&s->body, 0, 2), spell(&s->body, 1, 2), spell(&s->body, end - from, 4);
    if (end == 10)
        met(s, route, 1, 8 - from);
    else
        spell(&s->body, 0, 2), spell(&s->body, 0, 8);
    record(s, body, 7);
}

static void walk(struct shift *s, unsigned connection, unsigned route, unsigned place)
{
    const uint8_t *body = s->body;
    spell(&s->body, connection, 2), spell(&s->body, place, 4), spell(&s->body, 10, 4), frame(s, route, 0, 10);
    spell(&s->body, 0, 2), spell(&s->body, 10, 4);
    if (place == 0)
        met(s, route, 0, 8);
    else
        spell(&s->body, 0, 2), spell(&s->body, 0, 8);
    record(s, body, 8);
}

static void waiting(struct shift *s, unsigned connection, unsigned destination)
{
    const uint8_t *body = s->body;
    spell(&s->body, connection, 2), spell(&s->body, 1472, 4);
    spell(&s->body, 0, 2), spell(&s->body, 10, 4), address(s, connection), frame(s, destination, 0, 10);
    record(s, body, 9);
}

/* The recording, so many bytes; of the last UDP and the last TCP connection, their last rows, and the last PDU. */
static unsigned make_shift(uint8_t *bytes, unsigned quarters)
{
    struct shift s = {.row = bytes + 4, .body = bytes + 4 + 12 * SHIFT_ENTRIES};
    unsigned udp = 4 * quarters - 2, tcp = 4 * quarters - 1, row = 16 * quarters - 2;
    uint8_t *to = bytes;
    spell(&to, 1, 2), spell(&to, SHIFT_ENTRIES, 2);
    const uint8_t *body = s.body;
    spell(&s.body, udp % (2 * quarters), 2), address(&s, udp), spell(&s.body, 0, 2), spell(&s.body, udp, 1);
    record(&s, body, 10);
    walk(&s, udp, row, 0);
    walk(&s, udp, row, 10);
    body = s.body;
    spell(&s.body, 8 * quarters - 1, 3), spell(&s.body, 2, 4), spell(&s.body, 180, 2), spell(&s.body, 0, 2);
    record(&s, body, 12);
    waiting(&s, udp, row);
    waiting(&s, tcp, row + 1);
    segment(&s, tcp, row + 1, 0, 10);
    segment(&s, tcp, row + 1, 0, 5);
    segment(&s, tcp, row + 1, 5, 10);
    body = s.body;
    spell(&s.body, 2, 2), spell(&s.body, 0, 2), spell(&s.body, 0, 4);
    record(&s, body, 14);
    return (unsigned)(s.body - bytes);
}

#endif
