/* repeat.c: what crates/bench_repeat and crates/bench_replay do, over the C twins: the same standard input, the same last words. */
#include "events.h"
#include "system.h"

static uint8_t head[16], image[2356], bytes[2944], rx[16 * 1464], tx[16 * 1472], out[16384];
static struct state state;
static struct lent lent = {.image = image, .state = &state, .rx = rx, .rx_length = sizeof rx, .tx = tx, .tx_length = sizeof tx};
static size_t length;

static size_t number(size_t at, unsigned width)
{
    size_t value = 0;
    while (width-- > 0)
        value = value << 8 | head[at++];
    return value;
}

static bool take(uint8_t connection, const uint8_t *segment, size_t n, enum kind kind)
{
    struct outcome outcome;
    return twin_take(&lent, connection, segment, n, &outcome) == 0 && outcome.kind == kind;
}

/* Inside a transfer that has all its bytes still to come, as many as there can be. */
static void transfer(uint8_t connection, uint8_t route)
{
    struct record *c = &state.connections[connection];
    c->part = TRANSFER_BYTES;
    c->route = route;
    c->value = UINT32_MAX;
}

static bool piece(uint8_t connection, uint8_t route)
{
    transfer(connection, route);
    return take(connection, bytes, length, PIECE);
}

static bool tick(void)
{
    uint16_t failed;
    return twin_tick(&lent, &failed) == 0;
}

static bool walk(uint8_t connection)
{
    struct outcome outcome;
    return twin_walk_event(&lent, connection, bytes, length, 0, &outcome) == 0 && outcome.kind == PDU;
}

static void hold(size_t n, uint16_t used)
{
    struct record *c = &state.connections[n];
    c->used = used;
    c->timer = 0;
    c->due = false;
}

static bool transmit(uint8_t connection, uint16_t pdu)
{
    size_t refused_at;
    bool done = twin_transmit(&lent, pdu, bytes, length, &refused_at) == 0;
    hold(connection, 0);
    hold(connection + 1u, 0);
    return done;
}

static bool take_waiting(uint8_t connection, uint16_t used)
{
    size_t count;
    struct remote remote;
    hold(connection, used);
    return twin_take_waiting(&lent, connection, out, 1472, &count, &remote) == 0 && count == used &&
           (used == 0 || out[used - 1u] == tx[connection * 1472u + used - 1]);
}

static bool arrive(uint8_t connection)
{
    const uint8_t *row = image + 36 + image[7] * 2 + connection * 16;
    uint8_t met;
    struct remote source = state.connections[connection].remote;
    return twin_datagram(&lent, row[0], source, &met) == 0 && met == connection;
}

static bool dispatched(size_t event, const uint8_t *body, size_t n)
{
    return twin_dispatch(&lent, (unsigned)event, body, n, out, sizeof out) > 1 && out[0] == 0 && out[1] == 0;
}

/* Every timer of every connection runs: each is online with ten bytes to send, and its alive timer is at its row's limit. */
static void wind(void)
{
    const uint8_t *row = image + 36 + image[7] * 2;
    for (size_t i = 0; i < image[15]; i++, row += 16) {
        struct record *c = &state.connections[i];
        c->mode = ONLINE;
        c->used = 10;
        c->timer = 65535;
        c->due = c->remote_set = false;
        c->alive = (uint16_t)(row[10] << 8 | row[11]);
    }
}

/* A replay that is counted for the foreman's report, which begins empty. */
static bool tallied(void)
{
    static struct report report;
    memset(&report, 0, sizeof report);
    report.fits = true;
    return twin_replay(&lent, bytes, length, out, &report) && report.fits;
}

/* The event of a turn: without slots the PDU's number with all bytes for its body, else that of the slot whose turn it is, each of 28 bytes, a
 * number 2, a length 2 and a body. The number 65,535 is none, with a body of two bytes. */
static bool event_of(size_t turn, size_t count, uint16_t pdu)
{
    const uint8_t *body = bytes;
    size_t event = pdu, n = length;
    if (count != 0) {
        const uint8_t *slot = bytes + turn % count * 28;
        event = (size_t)(slot[0] << 8 | slot[1]);
        n = (size_t)(slot[2] << 8 | slot[3]);
        body = slot + 4;
    }
    return event == 65535 ? n == 2 : dispatched(event, body, n);
}

static bool accepted(uint8_t connection)
{
    const uint8_t *row = image + 36 + image[7] * 2 + connection * 16;
    uint8_t met;
    struct remote source = state.connections[connection].remote;
    return twin_accept(&lent, row[0], source, &met) == 0 && met == connection;
}

static bool lost(uint8_t connection)
{
    bool failed;
    return twin_lost(&lent, connection, &failed) == 0;
}

/* So many ticks, by the entry point. */
static bool many_ticks(void)
{
    uint16_t failed;
    uint32_t count = (uint32_t)bytes[0] << 24 | (uint32_t)bytes[1] << 16 | (uint32_t)bytes[2] << 8 | bytes[3];
    return twin_many_ticks(&lent, count, &failed) == 0;
}

/* Which call's turn it is, of a round: lost, connected; lost, accept; lost, set remote, connected; close, tick, open, tick. */
static size_t in_turn(size_t what, size_t turn)
{
    static const uint8_t three[] = {20, 23, 21}, four[] = {25, 7, 26, 7};
    switch (what) {
    case 32:
        return turn % 2 == 0 ? 20 : 21;
    case 33:
        return turn % 2 == 0 ? 20 : 22;
    case 34:
        return three[turn % 3];
    case 35:
        return four[turn % 4];
    default:
        return what;
    }
}

/* The call that a number names. */
static bool once(size_t what, size_t turn, uint8_t connection, uint16_t pdu, uint16_t used)
{
    uint32_t value;
    switch (what) {
    case 0:
        return true;
    case 1:
        return twin_read_count(&lent, 1, &value) == 0;
    case 2:
        return take(connection, bytes, length, PDU);
    case 3:
        return take(connection, bytes, length / 2, MORE) && take(connection, bytes + length / 2, length - length / 2, PDU);
    case 4:
        return walk(connection);
    case 5:
        return transmit(connection, pdu);
    case 6:
        return take_waiting(connection, used);
    case 7:
        return tick();
    case 8:
        return arrive(connection);
    case 10:
        return take(connection, bytes, length, DROP);
    case 11:
        return take(connection, bytes, 0, MORE);
    case 12:
        return event_of(turn, used, pdu);
    case 13:
        return twin_replay(&lent, bytes, length, out, 0);
    case 14:
        return piece(connection, (uint8_t)pdu);
    case 15:
        wind();
        return many_ticks();
    case 16:
        return tallied();
    case 17:
        return twin_switch(&lent, connection, 0, true) == 0;
    case 18:
        return twin_switch_all(&lent, 0, true) == 0;
    case 19:
        return twin_read_and_clear(&lent, 1, &value) == 0;
    case 20:
        return lost(connection);
    case 21:
        return twin_connected(&lent, connection) == 0;
    case 22:
        return accepted(connection);
    case 23:
        return twin_set_remote(&lent, connection, (struct remote){0x0A000001, 30490}) == 0;
    case 24:
        return many_ticks();
    case 25:
        return twin_close(&lent, connection) == 0;
    case 26:
        return twin_open(&lent, connection) == 0;
    case 69:
        hold(connection, 0);
        hold(connection + 1u, 0);
        return true;
    case 70:
        hold(connection, used);
        return true;
    case 71:
        transfer(connection, (uint8_t)pdu);
        return true;
    case 72:
        wind();
        return true;
    default:
        return false;
    }
}

/* The next n bytes of the input; whether they are there. */
static bool read_into(uint8_t *to, size_t n)
{
    for (size_t at = 0; at < n;) {
        long got = read(0, to + at, n - at);
        if (got <= 0)
            return false;
        at += (size_t)got;
    }
    return true;
}

int main(void)
{
    bool all = true;
    if (!read_into(head, sizeof head) || number(12, 2) > sizeof image || number(14, 2) > sizeof bytes ||
        !read_into(image, number(12, 2)) || !read_into(bytes, number(14, 2))) {
        printf("CUT\n");
        return 0;
    }
    lent.image_length = number(12, 2);
    length = number(14, 2);
    twin_fresh(image, lent.image_length, &state);
    size_t what = number(0, 1), times = number(4, 4), place = number(8, 2);
    for (size_t i = 0; i < image[15]; i++) { /* the number of connections */
        struct record *c = &state.connections[i];
        c->mode = ONLINE;
        if (what < 128)
            continue;
        c->used = 10;
        c->due = i % 2 == 0;
        c->timer = c->due ? 0 : 65535;
    }
    for (size_t i = 0; i < times; i++) {
        image[place] = (uint8_t)i;
        all &= once(in_turn(what % 128, i), i, (uint8_t)number(1, 1), (uint16_t)number(2, 2), (uint16_t)number(10, 2));
    }
    printf(all ? "OK\n" : "REFUSED\n");
    return 0;
}
