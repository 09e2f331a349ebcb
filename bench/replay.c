/* replay.c: the replay of a recording in plain C by docs/RECORDING.md, with the tests of the proved step in their order: the front, then per
 * entry the body's length, the distance, number, zero and body; the ticks, the event, and all bytes of its answer. Every test is here for
 * all sixteen events; of the events themselves those that the bench replays. Each entry comes three ticks after the one before. */
#include "events.h"
#include "system.h"
#include "table.h"

enum { LEAD = 4, CONTENTS = 12, MOST_ENTRIES = 4000, MOST_BODY = 4096, MOST_TICKS = 65535, ADDRESS = 19, STEP = 3 };

/* Bytes that end early read as 0. */
static uint32_t number(const uint8_t *s, size_t length, size_t at, unsigned width)
{
    uint32_t value = 0;
    for (unsigned i = 0; i < width; i++)
        value = value << 8 | (at + i < length ? s[at + i] : 0);
    return value;
}

static bool is_address(const uint8_t *s)
{
    static const uint8_t zeros[12];
    return s[0] == 4 && memcmp(s + 1, zeros, sizeof zeros) == 0;
}

/* Where the arguments end; the bytes that some of them end with have a length before them. */
static size_t arguments_end(unsigned event, const uint8_t *body, size_t length)
{
    static const uint8_t plain[17] = {0, 2, 2, 2, 2, 21, 4, 6, 10, 6, 21, 21, 7, 3, 2, 2, 2};
    bool counted = event == 7 || event == 8 || event == 12;
    return plain[event] + (counted ? (size_t)number(body, length, plain[event] - 4u, 4) : 0);
}

static bool arguments_fit(unsigned event, const uint8_t *body, size_t length)
{
    if (length > MOST_BODY || body[0] != 0)
        return false;
    switch (event) {
    case 5:
    case 10:
    case 11:
        return is_address(body + 2);
    case 6:
        return body[3] <= 1;
    case 13:
        return body[2] <= 1;
    default:
        return true;
    }
}

/* How many bytes a take has, by its kind and, of a PDU, where its payload stood. */
static size_t take_needs(const uint8_t *s, size_t length)
{
    unsigned kind = number(s, length, 4, 1), mark = number(s, length, 14, 1);
    return kind > 3 ? 18 : kind != 1 ? 14 : mark == 0 ? 19 : 15 + (size_t)number(s, length, 10, 4);
}

static bool takes_fit(const uint8_t *s, size_t length, unsigned count)
{
    for (; count > 0; count--) {
        unsigned kind = number(s, length, 4, 1), mark = number(s, length, 14, 1);
        size_t needs = take_needs(s, length);
        if (kind > 5 || (kind == 1 && mark > 1) || needs > length)
            return false;
        s += needs;
        length -= needs;
    }
    return length == 0;
}

static bool answer_fits(unsigned event, const uint8_t *s, size_t length)
{
    static const uint8_t plain[17] = {0, 2, 2, 2, 3, 2, 2, 0, 0, 0, 3, 3, 2, 2, 6, 6, 2};
    if (number(s, length, 0, 2) != 0)
        return length == 6;
    switch (event) {
    case 7:
        return length >= 4 && takes_fit(s + 4, length - 4, number(s, length, 2, 2));
    case 8:
        return number(s, length, 6, 1) <= 2 && length == (number(s, length, 6, 1) == 1 ? 20u : 16u);
    case 9:
        return (size_t)number(s, length, 2, 4) + 25 == length;
    default:
        return length == plain[event];
    }
}

/* ---- answers */

static uint8_t *put(uint8_t *to, uint32_t value, unsigned width)
{
    for (unsigned i = width; i-- > 0; value >>= 8)
        to[i] = (uint8_t)value;
    return to + width;
}

static size_t put_refusal(uint8_t *out, uint32_t answer, uint32_t destination)
{
    return (size_t)(put(put(out, answer, 2), destination, 4) - out);
}

static size_t walk(const struct lent *lent, const uint8_t *body, size_t length, uint8_t *out)
{
    struct outcome met = {0};
    uint32_t answer = twin_walk_event(lent, body[1], body + 10, length - 10, be32(body + 2), &met);
    if (answer != 0)
        return put_refusal(out, answer, 0);
    uint8_t *to = put(put(out, 0, 2), (uint32_t)met.read, 4);
    *to++ = (uint8_t)met.kind;
    *to++ = (uint8_t)met.number;
    to = put(put(to, met.id, 4), met.length, 4);
    if (met.kind == PDU)
        to = put(to, (uint32_t)(met.payload - (body + 10)), 4);
    return (size_t)(to - out);
}

static size_t take_waiting(const struct lent *lent, const uint8_t *body, uint8_t *out)
{
    size_t count = 0;
    struct remote remote;
    uint32_t room = be32(body + 2), answer = twin_take_waiting(lent, body[1], out + 25, room < 1472 ? room : 1472, &count, &remote);
    if (answer != 0)
        return put_refusal(out, answer, 0);
    uint8_t *to = put(put(out, 0, 2), (uint32_t)count, 4);
    *to++ = 4;
    memset(to, 0, 12);
    put(put(to + 12, remote.address, 4), remote.port, 2);
    return 25 + count;
}

static size_t transmit(const struct lent *lent, const uint8_t *body, size_t length, uint8_t *out)
{
    size_t row = 0;
    uint32_t answer = twin_transmit(lent, (uint16_t)be16(body + 1), body + 7, length - 7, &row);
    bool named = answer == 4 || answer == 7 || answer == 8;
    return answer != 0 ? put_refusal(out, answer, named ? (uint32_t)row : 0) : (size_t)(put(out, 0, 2) - out);
}

/* An event by its number; its answer, so many bytes. */
static size_t happen(const struct lent *lent, unsigned event, const uint8_t *body, size_t length, uint8_t *out)
{
    uint32_t answer, value = 0;
    uint8_t met = 0;
    switch (event) {
    case 7:
        return twin_segment(lent, body[1], body + 6, length - 6, out);
    case 8:
        return walk(lent, body, length, out);
    case 9:
        return take_waiting(lent, body, out);
    case 10:
        answer = twin_datagram(lent, body[1], (struct remote){.address = be32(body + 15), .port = (uint16_t)be16(body + 19)}, &met);
        return answer != 0 ? put_refusal(out, answer, 0) : (size_t)(put(put(out, 0, 2), met, 1) - out);
    case 12:
        return transmit(lent, body, length, out);
    case 14:
        answer = twin_read_count(lent, body[1], &value);
        return answer != 0 ? put_refusal(out, answer, 0) : (size_t)(put(put(out, 0, 2), value, 4) - out);
    default:
        return 0;
    }
}

/* ---- the foreman's report, out of the answers */

static void add(struct report *report, uint64_t *sum, uint64_t more)
{
    if (__builtin_add_overflow(*sum, more, sum))
        report->fits = false;
}

static void count_pdu(struct report *report, unsigned route, uint32_t length)
{
    if (route >= 64)
        return;
    struct figures *figures = &report->routes[route];
    if (figures->pdus == 0 || length < figures->smallest)
        figures->smallest = length;
    if (length > figures->largest)
        figures->largest = length;
    add(report, &figures->pdus, 1);
    add(report, &figures->bytes, length);
}

/* A take, or the step of a walk, which has the same bytes up to its length. */
static void count_take(struct report *report, unsigned connection, const uint8_t *take)
{
    unsigned kind = take[4], which = take[5];
    uint32_t length = be32(take + 10);
    if (kind == 1 || (kind == 3 && length == 0))
        count_pdu(report, which, length);
    else if (kind == 2 && which >= 20 && which <= 24)
        add(report, &report->drops[connection][which - 20], 1);
    else if (kind == 3)
        report->kept[connection] = length;
    else if (kind == 5)
        count_pdu(report, which, report->kept[connection]);
}

static void count_answer(struct report *report, unsigned event, unsigned connection, const uint8_t *out, size_t written)
{
    if ((event != 7 && event != 8) || connection >= 16 || be16(out) != 0)
        return;
    if (event == 8) {
        count_take(report, connection, out + 2);
        return;
    }
    const uint8_t *take = out + 4;
    for (unsigned left = be16(out + 2); left > 0; left--) {
        count_take(report, connection, take);
        take += take_needs(take, (size_t)(out + written - take));
    }
}

/* ---- an entry, and all of them */

static bool step(const struct lent *lent, uint32_t before, const uint8_t *row, const uint8_t *rest, size_t left, uint8_t *out, struct report *report)
{
    size_t length = be32(row + 8);
    uint32_t distance = be32(row) - before;
    unsigned event = be16(row + 4);
    if (left < length || distance > MOST_TICKS || event < 1 || event > 16 || be16(row + 6) != 0)
        return false;
    size_t end = arguments_end(event, rest, length);
    if (end > length || !arguments_fit(event, rest, end) || !answer_fits(event, rest + end, length - end))
        return false;
    twin_ticks(lent, distance, out);
    size_t written = happen(lent, event, rest, end, out);
    if (report != 0)
        count_answer(report, event, rest[1], out, written);
    return written == length - end && memcmp(out, rest + end, written) == 0;
}

bool twin_replay(const struct lent *lent, const uint8_t *recording, size_t length, uint8_t *out, struct report *report)
{
    if (length < LEAD || be16(recording) != 1)
        return false;
    size_t entries = be16(recording + 2), at = LEAD + CONTENTS * entries;
    if (length < at || entries > MOST_ENTRIES)
        return false;
    for (size_t i = 0; i < entries; i++)
        if (be32(recording + LEAD + i * CONTENTS + 8) > MOST_BODY)
            return false;
    bool all = true;
    for (size_t i = 0; i < entries; i++) {
        const uint8_t *row = recording + LEAD + i * CONTENTS;
        all &= step(lent, be32(row) - STEP, row, recording + at, length - at, out, report);
        at += be32(row + 8);
    }
    return all;
}
