/* events.c: the entry points in plain C by docs/RULES.md. */
#include "events.h"

#include "system.h"
#include "table.h"

#define RX 1464
#define TX 1472
#define MEMBERS 16

static bool is_wild(struct remote remote)
{
    return remote.address == 0 || remote.port == 0;
}

/* What the table says of a connection. */
struct config {
    bool tcp, automatic;
    struct remote remote;
    uint16_t size, alive;
    uint32_t switches;
};

static struct config config_of(const struct layout *table, size_t n)
{
    const uint8_t *row = table->body[CONNECTION] + n * ROW;
    return (struct config){
        .tcp = is_tcp(table, n),
        .automatic = row[1] == 1,
        .remote = {.address = be32(row + 2), .port = be16(row + 6)},
        .size = be16(row + 8),
        .alive = be16(row + 10),
        .switches = be32(row + 12),
    };
}

static struct record fresh(struct config config)
{
    return (struct record){.remote = config.remote, .switches = config.switches};
}

static bool is_empty(const struct record *c)
{
    return c->part == HEADER_BYTES && c->held == 0 && c->value == 0;
}

static bool is_shaped(const struct layout *table, size_t n, const struct record *c)
{
    if (c->part == HEADER_BYTES)
        return c->held < 8 && c->value >> 8 * c->held == 0;
    if (c->part == SKIP_BYTES)
        return c->value != 0;
    const uint8_t *row = table->body[ROUTE] + c->route * ROW;
    if (c->route >= table->rows[ROUTE] || row[0] != n)
        return false;
    if (c->part == TRANSFER_BYTES)
        return c->value != 0 && row[1] == 1;
    return c->held < c->length && row[1] == 0 && c->length <= be16(row + 2);
}

/* Of a record that has received nothing, wants nothing and is not watched the rules ask the send size alone of its row. */
static bool is_idle_sound(const struct layout *table, size_t n, const struct record *c)
{
    if (c->mode == ONLINE && is_wild(c->remote))
        return false;
    if (c->used == 0)
        return c->timer == 0 && !c->due;
    return c->mode == ONLINE && c->used <= be16(table->body[CONNECTION] + n * ROW + 8) && !(c->timer != 0 && c->due);
}

static bool is_sound(const struct layout *table, size_t n, const struct record *c)
{
    if (is_empty(c) && !c->open_wanted && !c->close_wanted && c->alive == 0)
        return is_idle_sound(table, n, c);
    struct config config = config_of(table, n);
    bool online = c->mode == ONLINE;
    if (c->used > config.size || !is_shaped(table, n, c))
        return false;
    if (!is_empty(c) && !(online && config.tcp))
        return false;
    if (c->used != 0 && !online)
        return false;
    if ((c->timer != 0 || c->due) && (c->used == 0 || (c->timer != 0 && c->due)))
        return false;
    if (online && is_wild(c->remote))
        return false;
    if (c->alive != 0 && (!online || c->alive > config.alive)) /* a TCP connection has no limit */
        return false;
    if (c->open_wanted && (config.automatic || c->mode != OFFLINE || c->close_wanted))
        return false;
    return !(c->close_wanted && config.automatic && (!config.tcp || c->mode == OFFLINE));
}

static bool is_zero(const struct record *c)
{
    return c->mode == OFFLINE && !c->open_wanted && !c->close_wanted && !c->due && c->remote.address == 0 && c->remote.port == 0 &&
           c->switches == 0 && is_empty(c) && c->used == 0 && c->timer == 0 && c->alive == 0 && !c->remote_set;
}

/* 11, then 12. */
static uint32_t ask(const struct lent *lent, struct layout *table)
{
    size_t bad;
    if (lent->rx_length != MEMBERS * RX || lent->tx_length != MEMBERS * TX)
        return 11;
    if (!check(lent->image, lent->image_length, table, &bad))
        return 12;
    size_t i = 0;
    for (; i < table->rows[CONNECTION]; i++)
        if (!is_sound(table, i, &lent->state->connections[i]))
            return 12;
    for (; i < MEMBERS; i++)
        if (!is_zero(&lent->state->connections[i]))
            return 12;
    return 0;
}

/* 11, 12, 2. */
static uint32_t ask_at(const struct lent *lent, size_t n, struct layout *table)
{
    uint32_t answer = ask(lent, table);
    return answer != 0 ? answer : n < table->rows[CONNECTION] ? 0 : 2;
}

void twin_fresh(const uint8_t *image, size_t image_length, struct state *state)
{
    struct layout table;
    size_t bad;
    memset(state, 0, sizeof *state);
    if (!check(image, image_length, &table, &bad))
        return;
    for (size_t i = 0; i < table.rows[CONNECTION]; i++)
        state->connections[i] = fresh(config_of(&table, i));
}

static void count_drop(struct state *state, bool tcp)
{
    if (state->drops[tcp] != UINT32_MAX)
        state->drops[tcp]++;
}

uint32_t twin_read_count(const struct lent *lent, uint8_t protocol, uint32_t *value)
{
    struct layout table;
    uint32_t answer = ask(lent, &table);
    if (answer != 0)
        return answer;
    if (protocol != 1 && protocol != 2)
        return 3;
    *value = lent->state->drops[protocol - 1];
    return 0;
}

uint32_t twin_read_and_clear(const struct lent *lent, uint8_t protocol, uint32_t *value)
{
    uint32_t answer = twin_read_count(lent, protocol, value);
    if (answer == 0)
        lent->state->drops[protocol - 1] = 0;
    return answer;
}

uint32_t twin_open(const struct lent *lent, uint8_t connection)
{
    struct layout table;
    uint32_t answer = ask_at(lent, connection, &table);
    if (answer != 0)
        return answer;
    struct record *c = &lent->state->connections[connection];
    if (config_of(&table, connection).automatic || c->mode != OFFLINE || c->close_wanted)
        return 3;
    c->open_wanted = true;
    return 0;
}

uint32_t twin_close(const struct lent *lent, uint8_t connection)
{
    struct layout table;
    uint32_t answer = ask_at(lent, connection, &table);
    if (answer != 0)
        return answer;
    struct record *c = &lent->state->connections[connection];
    if (config_of(&table, connection).automatic || !(c->open_wanted || c->mode != OFFLINE))
        return 3;
    c->close_wanted = true;
    c->open_wanted = false;
    return 0;
}

uint32_t twin_connected(const struct lent *lent, uint8_t connection)
{
    struct layout table;
    uint32_t answer = ask_at(lent, connection, &table);
    if (answer != 0)
        return answer;
    struct record *c = &lent->state->connections[connection];
    if (!config_of(&table, connection).tcp || c->mode != RECONNECT || c->close_wanted || is_wild(c->remote))
        return 3;
    c->mode = ONLINE;
    return 0;
}

/* A transfer runs, and the receiver wants no more of it. */
uint32_t twin_cancel(const struct lent *lent, uint8_t connection)
{
    struct layout table;
    uint32_t answer = ask_at(lent, connection, &table);
    if (answer != 0)
        return answer;
    struct record *c = &lent->state->connections[connection];
    if (c->part != TRANSFER_BYTES)
        return 3;
    c->close_wanted = true;
    return 0;
}

uint32_t twin_lost(const struct lent *lent, uint8_t connection, bool *failed)
{
    struct layout table;
    uint32_t answer = ask_at(lent, connection, &table);
    if (answer != 0)
        return answer;
    struct record *c = &lent->state->connections[connection];
    struct config config = config_of(&table, connection);
    if (!config.tcp || c->mode != ONLINE)
        return 3;
    *failed = c->part == TRANSFER_BYTES;
    *c = (struct record){.mode = RECONNECT, .close_wanted = c->close_wanted, .remote = config.remote, .switches = c->switches};
    return 0;
}

uint32_t twin_set_remote(const struct lent *lent, uint8_t connection, struct remote remote)
{
    struct layout table;
    uint32_t answer = ask_at(lent, connection, &table);
    if (answer != 0)
        return answer;
    struct record *c = &lent->state->connections[connection];
    if (c->mode == ONLINE)
        return 3;
    c->remote = remote;
    c->remote_set = true;
    return 0;
}

static void set_switch(struct record *c, uint8_t number, bool on)
{
    uint32_t bit = (uint32_t)1 << number;
    c->switches = on ? c->switches | bit : c->switches & ~bit;
}

uint32_t twin_switch(const struct lent *lent, uint8_t connection, uint8_t number, bool on)
{
    struct layout table;
    uint32_t answer = ask_at(lent, connection, &table);
    if (answer != 0)
        return answer;
    if (number >= 32)
        return 2;
    set_switch(&lent->state->connections[connection], number, on);
    return 0;
}

uint32_t twin_switch_all(const struct lent *lent, uint8_t number, bool on)
{
    struct layout table;
    uint32_t answer = ask(lent, &table);
    if (answer != 0)
        return answer;
    if (number >= 32)
        return 2;
    for (size_t i = 0; i < table.rows[CONNECTION]; i++)
        set_switch(&lent->state->connections[i], number, on);
    return 0;
}

/* Header bytes of the segment from its front; the number of them. */
static size_t take_header(struct record *c, const uint8_t *segment, size_t length)
{
    size_t at = 0;
    while (c->held < HEADER && at < length) {
        c->value = c->value << 8 | segment[at++];
        c->held++;
    }
    return at;
}

static void ready(struct record *c)
{
    c->part = HEADER_BYTES;
    c->route = 0;
    c->length = c->held = 0;
    c->value = 0;
}

/* Payload bytes of the segment from a place on. */
static void take_payload(const struct layout *table, struct record *c, uint8_t *stretch, const uint8_t *segment, size_t length,
                         size_t at, struct outcome *outcome)
{
    size_t left = length - at, wanted = (size_t)(c->length - c->held);
    if (left < wanted) {
        memcpy(stretch + c->held, segment + at, left);
        c->held += (uint16_t)left;
        outcome->kind = MORE;
        outcome->read = length;
        return;
    }
    if (c->held != 0)
        memcpy(stretch + c->held, segment + at, wanted);
    *outcome = (struct outcome){
        .kind = PDU,
        .number = c->route,
        .id = be32(table->body[ROUTE] + c->route * ROW + 4),
        .length = c->length,
        .read = at + wanted,
        .payload = c->held != 0 ? stretch : segment + at,
    };
    ready(c);
}

/* A piece of a running transfer: all of its bytes that stand in the segment. */
static void take_piece(const struct layout *table, struct record *c, const uint8_t *segment, size_t length, struct outcome *outcome)
{
    size_t here = c->value < length ? c->value : length;
    *outcome = (struct outcome){.kind = MORE};
    if (length == 0)
        return;
    *outcome = (struct outcome){
        .kind = here == c->value ? LAST_PIECE : PIECE,
        .number = c->route,
        .id = be32(table->body[ROUTE] + c->route * ROW + 4),
        .length = (uint32_t)here,
        .read = here,
        .payload = segment,
    };
    c->value -= here;
    if (c->value == 0)
        ready(c);
}

/* 11, 12, 2, 3, 4. */
static uint32_t ask_take(const struct lent *lent, uint8_t connection, struct layout *table)
{
    uint32_t answer = ask_at(lent, connection, table);
    if (answer != 0)
        return answer;
    const struct record *c = &lent->state->connections[connection];
    if (!config_of(table, connection).tcp)
        return 3;
    return c->mode != ONLINE || c->close_wanted ? 4 : 0;
}

/* A take past all refusals. */
static void take(const struct lent *lent, const struct layout *table, uint8_t connection, const uint8_t *segment, size_t length,
                 struct outcome *outcome)
{
    struct record *c = &lent->state->connections[connection];
    size_t at = 0;
    if (c->part == TRANSFER_BYTES) {
        take_piece(table, c, segment, length, outcome);
        return;
    }
    if (c->part == SKIP_BYTES) {
        at = c->value < length ? c->value : length;
        c->value -= at;
        if (c->value != 0) {
            *outcome = (struct outcome){.kind = MORE, .read = length};
            return;
        }
        c->part = HEADER_BYTES;
    }
    if (c->part == HEADER_BYTES) {
        at += take_header(c, segment + at, length - at);
        if (c->held < HEADER) {
            *outcome = (struct outcome){.kind = MORE, .read = length};
            return;
        }
        uint32_t id = (uint32_t)(c->value >> 32), size = (uint32_t)c->value;
        bool dropped;
        uint32_t number = look_up(table, connection, c->switches, id, size, &dropped);
        ready(c);
        if (dropped) {
            c->part = size == 0 ? HEADER_BYTES : SKIP_BYTES;
            c->value = size;
            count_drop(lent->state, true);
            *outcome = (struct outcome){.kind = DROP, .number = number, .id = id, .length = size, .read = at};
            return;
        }
        if (is_marked(table, number)) {
            c->part = size == 0 ? HEADER_BYTES : TRANSFER_BYTES;
            c->route = size == 0 ? 0 : (uint8_t)number;
            c->value = size;
            *outcome = (struct outcome){.kind = START, .number = number, .id = id, .length = size, .read = at};
            return;
        }
        c->part = PAYLOAD_BYTES;
        c->route = (uint8_t)number;
        c->length = (uint16_t)size;
    }
    take_payload(table, c, lent->rx + connection * RX, segment, length, at, outcome);
}

uint32_t twin_take(const struct lent *lent, uint8_t connection, const uint8_t *segment, size_t length, struct outcome *outcome)
{
    struct layout table;
    uint32_t answer = ask_take(lent, connection, &table);
    if (answer == 0)
        take(lent, &table, connection, segment, length, outcome);
    return answer;
}

static uint8_t *put(uint8_t *to, uint32_t value, unsigned width)
{
    for (unsigned i = width; i-- > 0; value >>= 8)
        to[i] = (uint8_t)value;
    return to + width;
}

static size_t put_refusal(uint8_t *out, uint32_t answer)
{
    return (size_t)(put(put(out, answer, 2), 0, 4) - out);
}

/* One take: what it read and met; a piece's place in the segment; a PDU's place there, or its bytes. */
static uint8_t *put_take(uint8_t *to, const struct outcome *met, const uint8_t *segment, size_t length)
{
    to = put(to, (uint32_t)met->read, 4);
    *to++ = (uint8_t)met->kind;
    *to++ = (uint8_t)met->number;
    put_be32(to, met->id);
    put_be32(to + 4, met->length);
    to += 8;
    size_t place = (size_t)(met->payload - segment);
    if (met->kind == PIECE || met->kind == LAST_PIECE)
        return put(to, (uint32_t)place, 4);
    if (met->kind != PDU)
        return to;
    *to++ = place > length;
    if (place <= length)
        return put(to, (uint32_t)place, 4);
    memcpy(to, met->payload, met->length);
    return to + met->length;
}

size_t twin_segment(const struct lent *lent, uint8_t connection, const uint8_t *segment, size_t length, uint8_t *out)
{
    struct layout table;
    uint32_t answer = ask_take(lent, connection, &table), takes = 0;
    uint8_t *to = out + 4;
    size_t at = 0;
    if (answer != 0)
        return put_refusal(out, answer);
    do {
        struct outcome met = {0};
        take(lent, &table, connection, segment + at, length - at, &met);
        to = put_take(to, &met, segment, length);
        at += met.read;
        takes++;
    } while (at < length);
    put(put(out, 0, 2), takes, 2);
    return (size_t)(to - out);
}

uint32_t twin_walk_event(const struct lent *lent, uint8_t connection, const uint8_t *datagram, size_t length, size_t place,
                         struct outcome *outcome)
{
    struct layout table;
    uint32_t answer = ask_at(lent, connection, &table);
    if (answer != 0)
        return answer;
    struct record *c = &lent->state->connections[connection];
    if (config_of(&table, connection).tcp || place > length)
        return 3;
    if (c->mode != ONLINE || c->close_wanted)
        return 4;
    size_t left = length - place;
    *outcome = (struct outcome){.kind = left == 0 ? MORE : DROP, .number = left == 0 ? 0 : 23, .read = length};
    if (left < HEADER) {
        if (left != 0)
            count_drop(lent->state, false);
        return 0;
    }
    outcome->id = be32(datagram + place);
    outcome->length = be32(datagram + place + 4);
    if (outcome->length > left - HEADER) {
        count_drop(lent->state, false);
        return 0;
    }
    bool dropped;
    outcome->number = look_up(&table, connection, c->switches, outcome->id, outcome->length, &dropped);
    outcome->read = place + HEADER + outcome->length;
    if (dropped) {
        count_drop(lent->state, false);
        return 0;
    }
    outcome->kind = PDU;
    outcome->payload = datagram + place + HEADER;
    return 0;
}

/* What a destination says to a payload: 0, 4, 7, 8; 6 when it is switched off. */
static uint32_t look(const struct layout *table, const uint8_t *row, const struct record *c, size_t length)
{
    uint32_t groups = be32(row + 12);
    if (groups != 0 && (groups & c->switches) == 0)
        return 6;
    if (c->mode != ONLINE || c->close_wanted)
        return 4;
    if (length > be16(row + 2))
        return 7;
    return c->used + HEADER + length > be16(table->body[CONNECTION] + row[0] * ROW + 8) ? 8 : 0;
}

/* Header and payload after what waits, and the timer or the due mark. */
static void append(const struct lent *lent, const uint8_t *row, const uint8_t *payload, size_t length)
{
    struct record *c = &lent->state->connections[row[0]];
    uint8_t *at = lent->tx + row[0] * TX + c->used;
    uint16_t timeout = be16(row + 10);
    memcpy(at, row + 4, 4);
    put_be32(at + 4, (uint32_t)length);
    memcpy(at + HEADER, payload, length);
    c->used += (uint16_t)(HEADER + length);
    if (row[1] == 1) {
        c->due = true;
        c->timer = 0;
    } else if (!c->due && timeout > 0 && (c->timer == 0 || timeout < c->timer)) {
        c->timer = timeout;
    }
}

uint32_t twin_transmit(const struct lent *lent, uint16_t pdu, const uint8_t *payload, size_t length, size_t *refused_at)
{
    struct layout table;
    uint32_t answer = ask(lent, &table), seen = 5;
    if (answer != 0)
        return answer;
    const uint8_t *row = table.body[DESTINATION];
    for (size_t i = 0; i < table.rows[DESTINATION]; i++, row += ROW) {
        if (be16(row + 8) != pdu)
            continue;
        uint32_t one = look(&table, row, &lent->state->connections[row[0]], length);
        if (one != 0 && one != 6) {
            *refused_at = i;
            return one;
        }
        seen = seen == 0 ? 0 : one;
    }
    if (seen != 0)
        return seen;
    row = table.body[DESTINATION];
    for (size_t i = 0; i < table.rows[DESTINATION]; i++, row += ROW) {
        uint32_t groups = be32(row + 12);
        if (be16(row + 8) == pdu && (groups == 0 || (groups & lent->state->connections[row[0]].switches) != 0))
            append(lent, row, payload, length);
    }
    return 0;
}

/* The configured remote is back, and nobody is watched. */
static void reset(struct record *c, struct config config)
{
    c->remote = config.remote;
    c->remote_set = false;
    c->alive = 0;
}

uint32_t twin_take_waiting(const struct lent *lent, uint8_t connection, uint8_t *out, size_t room, size_t *count,
                           struct remote *remote)
{
    struct layout table;
    uint32_t answer = ask_at(lent, connection, &table);
    if (answer != 0)
        return answer;
    struct record *c = &lent->state->connections[connection];
    if (room < c->used)
        return 9;
    *count = c->used;
    *remote = c->remote;
    if (c->used == 0)
        return 0;
    memcpy(out, lent->tx + connection * TX, c->used);
    c->used = c->timer = 0;
    c->due = false;
    struct config config = config_of(&table, connection);
    if (config.automatic && is_wild(config.remote)) {
        if (config.tcp) {
            c->close_wanted = true;
        } else {
            c->mode = RECONNECT;
            reset(c, config);
        }
    }
    return 0;
}

/* A silent peer: reconnect, send bytes dropped, remote as configured. */
static void let_go(struct record *c, struct config config)
{
    c->mode = RECONNECT;
    c->used = c->timer = 0;
    c->due = false;
    reset(c, config);
}

static void tick_record(struct record *c, struct config config)
{
    if (c->close_wanted) {
        uint32_t switches = c->switches;
        *c = fresh(config);
        c->switches = switches;
        return;
    }
    if (c->alive != 0 && --c->alive == 0 && !c->remote_set) {
        let_go(c, config);
        return;
    }
    if (c->mode == OFFLINE && (c->open_wanted || config.automatic)) {
        c->mode = RECONNECT;
        c->open_wanted = false;
    }
    if (c->mode == RECONNECT && !config.tcp && !is_wild(c->remote))
        c->mode = ONLINE;
    if (c->timer != 0 && --c->timer == 0)
        c->due = true;
}

/* The bit of connection i where its next tick ends a transfer. */
static uint16_t fails(const struct record *c, size_t i)
{
    return (uint16_t)((c->close_wanted && c->part == TRANSFER_BYTES) << i);
}

/* Online, not to be closed, and no timer runs: no tick changes it. */
static bool rests(const struct record *c) { return c->mode == ONLINE && !c->close_wanted && c->timer == 0 && c->alive == 0; }

uint32_t twin_tick(const struct lent *lent, uint16_t *failed)
{
    struct layout table;
    uint32_t answer = ask(lent, &table);
    *failed = 0;
    if (answer != 0)
        return answer;
    for (size_t i = 0; i < table.rows[CONNECTION]; i++) {
        struct record *c = &lent->state->connections[i];
        if (rests(c))
            continue;
        *failed |= fails(c, i);
        tick_record(c, config_of(&table, i));
    }
    return 0;
}

/* Two ticks settle a record; after them only its timers move. One that is let go, then or later, waits for no more than the next tick. */
static void tick_many(struct record *c, struct config config, uint32_t count)
{
    for (unsigned i = 0; i < 2 && count > 0; i++, count--)
        tick_record(c, config);
    if (count == 0)
        return;
    if (c->alive != 0 && c->alive <= count && !c->remote_set) {
        count -= c->alive;
        let_go(c, config);
    }
    if (c->mode != ONLINE) {
        if (count > 0)
            tick_record(c, config);
        return;
    }
    c->alive = c->alive <= count ? 0 : (uint16_t)(c->alive - count);
    if (c->timer == 0)
        return;
    c->due = c->timer <= count;
    c->timer = c->due ? 0 : (uint16_t)(c->timer - count);
}

uint32_t twin_many_ticks(const struct lent *lent, uint32_t count, uint16_t *failed)
{
    struct layout table;
    uint32_t answer = ask(lent, &table);
    *failed = 0;
    if (answer != 0)
        return answer;
    for (size_t i = 0; i < table.rows[CONNECTION]; i++) {
        struct record *c = &lent->state->connections[i];
        if (rests(c))
            continue;
        if (count > 0)
            *failed |= fails(c, i);
        tick_many(c, config_of(&table, i), count);
    }
    return 0;
}

size_t twin_ticks(const struct lent *lent, uint32_t count, uint8_t *out)
{
    uint16_t failed;
    uint32_t answer = twin_many_ticks(lent, count, &failed);
    return answer != 0 ? put_refusal(out, answer) : (size_t)(put(out, failed, 4) - out);
}

/* The best member of a group of this protocol; one that is online counts or does not. */
static uint32_t select_member(const struct lent *lent, uint8_t group, struct remote source, uint8_t protocol, bool online, uint8_t *met)
{
    struct layout table;
    uint32_t answer = ask(lent, &table);
    unsigned best = 0;
    if (answer != 0)
        return answer;
    if (group >= table.rows[GROUP])
        return 2;
    if (table.body[GROUP][group * 2] != protocol || is_wild(source))
        return 3;
    for (size_t i = 0; i < table.rows[CONNECTION]; i++) {
        const struct record *c = &lent->state->connections[i];
        if (table.body[CONNECTION][i * ROW] != group || c->mode == OFFLINE || (c->mode == ONLINE && !online) || c->close_wanted)
            continue;
        bool address = c->remote.address == source.address, port = c->remote.port == source.port;
        if ((!address && c->remote.address != 0) || (!port && c->remote.port != 0))
            continue;
        unsigned score = 1u + 2u * address + port;
        if (score > best) {
            best = score;
            *met = (uint8_t)i;
        }
    }
    if (best == 0)
        return 10;
    struct record *c = &lent->state->connections[*met];
    if (c->alive != 0 || is_wild(c->remote)) /* a peer that replaces a wildcard is watched, and every datagram starts its timer again */
        c->alive = be16(table.body[CONNECTION] + *met * ROW + 10);
    c->mode = ONLINE;
    c->remote = source;
    return 0;
}

uint32_t twin_datagram(const struct lent *lent, uint8_t group, struct remote source, uint8_t *met)
{
    return select_member(lent, group, source, 1, true, met);
}

uint32_t twin_accept(const struct lent *lent, uint8_t group, struct remote source, uint8_t *met)
{
    return select_member(lent, group, source, 2, false, met);
}
