/* input.c: writes the standard input of `repeat` (crates/bench_repeat and crates/bench_replay, and repeat.c here).
 *
 *   input WHAT QUARTERS LENGTH TIMES     a table with QUARTERS/4 of the most rows, a payload of LENGTH bytes, TIMES calls of WHAT
 *
 * WHAT: nothing, gate, take, cut, walk, transmit, waiting, tick, datagram; segment: an event of LENGTH PDUs of 10 bytes in all;
 * ticks: an event of LENGTH ticks; emptied, holding: what transmit and waiting do besides the call; first, middle, last: a take under
 * a table whose groups are all TCP, with the first, the middle or the last row for its route; none: the same with an id that no row
 * has, and no payload; empty: a take of no bytes there; switch, all, clear, lost, accept, remote, close: events through the dispatcher, in
 * rounds that leave the state as they find it (lost, connected; lost, accept; lost, set remote, connected; close, tick, open, tick), one
 * event a call; idle0, idle, idle2, idle3, idle4: none, without a slot and out of so many; piece: a take of LENGTH bytes inside a transfer; begun: what it does besides the call; replay: the recording of ten
 * events, answers and all (shift.h); tally: the same, counted for the foreman's report;
 * wound: LENGTH ticks before which every timer is started, under a table with alive limits; wind: what it does besides the call;
 * own-switch to own-close, own-ticks: what the words behind `own-` name, by calls of the entry points and not of the dispatcher.
 * With a `+` before it: under a state in which each connection holds bytes to send.
 */
#include "image.h"
#include "shift.h"
#include "system.h"

extern int atoi(const char *text);
extern int strcmp(const char *one, const char *other);

static const char *const names[] = {"nothing", "gate",    "take",  "cut",     "walk",    "transmit", "waiting", "tick", "datagram",
                                    "segment", "ticks",   "first", "middle",  "last",    "none",     "empty",   "emptied", "holding",
                                    "switch",  "all",     "clear", "lost",    "accept",  "remote",   "close",   "idle0",   "idle",  "idle2", "idle3", "idle4",
                                    "replay",  "tally",   "piece", "begun",   "wound",   "wind",
                                    "own-switch", "own-all", "own-clear", "own-lost", "own-accept", "own-remote", "own-close", "own-ticks"};
enum {
    NOTHING, GATE, TAKE, CUT, WALK, TRANSMIT, WAITING, TICK, DATAGRAM, SEGMENT, TICKS, FIRST, MIDDLE, LAST, NONE, EMPTY, EMPTIED, HOLDING,
    SWITCH, ALL, CLEAR, LOST, ACCEPT, REMOTE, CLOSE, IDLE0, IDLE, IDLE2, IDLE3, IDLE4, REPLAY, TALLY, PIECE, BEGUN, WOUND, WIND,
    OWN_SWITCH, OWN_ALL, OWN_CLEAR, OWN_LOST, OWN_ACCEPT, OWN_REMOTE, OWN_CLOSE, OWN_TICKS, WHATS
};
static const uint8_t numbers[] = {0, 1, 2, 3, 4, 5, 6, 7, 8, 12, 12, 2, 2, 2, 10, 11, 69, 70, 12, 12, 12, 12, 12, 12, 12, 12, 12, 12, 12, 12, 13, 16, 14, 71, 15, 72, 17, 18, 19, 32, 33, 34, 35, 24};
enum { EVENT_TICKS = 0, EVENT_SEGMENT = 7, NO_EVENT = 65535, PDU_BYTES = 10, SLOT = 28, BUSY = 128 };

static uint8_t head[16], bytes[2944];

static void set(uint8_t *at, uint64_t value, unsigned width)
{
    for (unsigned i = width; i-- > 0; value >>= 8)
        at[i] = (uint8_t)value;
}

/* The row whose id the bytes carry: for a lookup the one that it names, or the one past the last; else the last that has a connection
 * of the protocol asked for. */
static unsigned route_of(unsigned what, unsigned rows)
{
    switch (what) {
    case FIRST:
        return 0;
    case MIDDLE:
        return rows / 2;
    case LAST:
        return rows - 1;
    case NONE:
        return rows;
    default:
        return rows - (what == TAKE || what == CUT || what == SEGMENT || what == LOST || what == ACCEPT || what == REMOTE || what == PIECE || what == BEGUN ||
                               (what >= OWN_LOST && what <= OWN_REMOTE)
                           ? 1
                           : 2);
    }
}

/* Adds an event, in a slot behind so many, of so many bytes of body behind the party, which is 0: what it names, then its other bytes. */
static unsigned add_event(unsigned slots, unsigned event, unsigned named, const uint8_t *more, unsigned extra)
{
    uint8_t *at = bytes + slots * SLOT;
    set(at, event, 2);
    set(at + 2, 2 + extra, 2);
    set(at + 5, named, 1);
    for (unsigned i = 0; i < extra; i++)
        at[6 + i] = more[i];
    return slots + 1;
}

/* One tick: its body has no party. */
static unsigned add_tick(unsigned slots)
{
    uint8_t *at = bytes + slots * SLOT;
    set(at, 0, 2);
    set(at + 2, 4, 2);
    set(at + 4, 1, 4);
    return slots + 1;
}

/* The events of a round, on a connection of a group; how many they are. */
static unsigned add_events(unsigned what, unsigned connection, unsigned group)
{
    static const uint8_t on[] = {0, 1};
    uint8_t address[19] = {4};
    unsigned at = 0;
    set(address + 13, 0x0A000001 + connection, 4);
    set(address + 17, 30490, 2);
    switch (what) {
    case SWITCH:
        return add_event(at, 6, connection, on, 2);
    case ALL:
        return add_event(at, 13, 0, on + 1, 1);
    case CLEAR:
        return add_event(at, 15, 1, on, 0);
    case LOST:
        return add_event(add_event(at, 4, connection, on, 0), 3, connection, on, 0);
    case ACCEPT:
        return add_event(add_event(at, 4, connection, on, 0), 11, group, address, 19);
    case REMOTE:
        at = add_event(add_event(at, 4, connection, on, 0), 5, connection, address, 19);
        return add_event(at, 3, connection, on, 0);
    case CLOSE:
        at = add_tick(add_event(at, 2, connection, on, 0));
        return add_tick(add_event(at, 1, connection, on, 0));
    default:
        while (at < what - IDLE0)
            at = add_event(at, NO_EVENT, connection, on, 0);
        return at;
    }
}

int main(int count, char **words)
{
    unsigned what = 0;
    if (count != 5)
        die("usage: input WHAT QUARTERS LENGTH TIMES");
    const char *name = words[1][0] == '+' ? words[1] + 1 : words[1];
    while (what < WHATS && strcmp(name, names[what]) != 0)
        what++;
    if (what == WHATS)
        die("input: there is no such call");
    unsigned quarters = (unsigned)atoi(words[2]), length = (unsigned)atoi(words[3]);
    make_image(quarters, 1);
    for (unsigned i = 0; what >= FIRST && what <= EMPTY && i < 2 * quarters; i++)
        image[36 + 2 * i] = 2; /* TCP */
    /* a row's connection is its number, counted round the connections */
    unsigned route = route_of(what, 16 * quarters), connection = quarters == 0 ? 0 : route % (4 * quarters);
    int framed = what == TAKE || what == CUT || what == SEGMENT || what == WALK || (what >= FIRST && what <= NONE);
    unsigned pdus = what == SEGMENT ? length : 1, size = what == SEGMENT ? 2 : length;
    unsigned front = what == SEGMENT ? 6 : 0, given = what == TRANSMIT || what == PIECE ? length : 0;
    if (framed)
        given = front + pdus * (8 + size);
    if (given > sizeof bytes)
        die("input: too long");
    for (unsigned i = 0; framed && i < pdus; i++) {
        set(bytes + front + i * PDU_BYTES, id_of(route, 1), 4);
        set(bytes + front + i * PDU_BYTES + 4, size, 4);
    }
    if (what == SEGMENT) { /* party, connection, length */
        set(bytes + 1, connection, 1);
        set(bytes + 2, pdus * PDU_BYTES, 4);
    }
    if (what == PIECE || what == BEGUN) /* its route is marked */
        image[36 + 2 * (2 * quarters) + 16 * (4 * quarters) + 16 * route + 1] = 1;
    for (unsigned i = 0; (what == WOUND || what == WIND) && i < 4 * quarters; i += 2) /* every other connection is UDP: alive limits that end one after the other */
        set(image + 36 + 2 * (2 * quarters) + 16 * i + 10, 30000 + 1000 * i, 2);
    if (what == TICKS || what == WOUND || what == OWN_TICKS)
        set(bytes, length, given = 4);
    unsigned used = what == SEGMENT || what == TICKS ? 0 : length;
    if (what >= SWITCH && what <= IDLE4) {
        used = add_events(what, connection, connection % (2 * quarters));
        given = what == IDLE0 ? 2 : used * SLOT;
    }
    if (what == REPLAY || what == TALLY)
        given = make_shift(bytes, quarters);
    set(head, numbers[what] + (name != words[1] ? BUSY : 0), 1);
    set(head + 1, connection, 1);
    set(head + 2, what == SEGMENT ? EVENT_SEGMENT : what == TICKS ? EVENT_TICKS : what == IDLE0 ? NO_EVENT : what == PIECE || what == BEGUN ? route : 8 * quarters - 1, 2);
    set(head + 4, (uint64_t)atoi(words[4]), 4);
    set(head + 8, 36 + 2 * (2 * quarters) + 16 * (4 * quarters) + 9, 2); /* the first route's upper PDU */
    set(head + 10, used, 2);
    set(head + 12, image_length, 2);
    set(head + 14, given, 2);
    long told = write(1, head, sizeof head);
    told += write(1, image, image_length);
    told += write(1, bytes, given);
    return told < 0;
}
