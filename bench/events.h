/* events.h: the C twins of the entry points: same checks, same order, same answers. The state and both memories are changed in
 * place. */
#ifndef EVENTS_H
#define EVENTS_H

#include <stdbool.h>
#include <stddef.h>
#include <stdint.h>

enum mode { OFFLINE, RECONNECT, ONLINE };
enum part { HEADER_BYTES, PAYLOAD_BYTES, SKIP_BYTES, TRANSFER_BYTES };

struct remote {
    uint32_t address;
    uint16_t port;
};

struct record {
    enum mode mode;
    bool open_wanted, close_wanted, due;
    bool remote_set; /* the upper layer set the remote */
    struct remote remote;
    uint32_t switches;
    enum part part;
    uint8_t route;         /* of an unfinished payload or a transfer */
    uint16_t length, held; /* of an unfinished payload; held also counts header bytes */
    uint64_t value;        /* header bytes held, as a number; bytes still to skip; bytes of a transfer to come */
    uint16_t used, timer;
    uint16_t alive; /* the alive timer, 0 when stopped */
};

struct state {
    struct record connections[16];
    uint32_t drops[2]; /* UDP, TCP */
};

/* What every call is lent. */
struct lent {
    const uint8_t *image;
    size_t image_length;
    struct state *state;
    uint8_t *rx;
    size_t rx_length;
    uint8_t *tx;
    size_t tx_length;
};

enum kind { MORE, PDU, DROP, START, PIECE, LAST_PIECE }; /* the end of a datagram is MORE */

struct outcome {
    enum kind kind;
    uint32_t number; /* route or reason */
    uint32_t id, length;
    size_t read; /* bytes of a segment; the next place of a datagram */
    const uint8_t *payload;
};

void twin_fresh(const uint8_t *image, size_t image_length, struct state *state);
uint32_t twin_read_count(const struct lent *lent, uint8_t protocol, uint32_t *value);
uint32_t twin_read_and_clear(const struct lent *lent, uint8_t protocol, uint32_t *value);
uint32_t twin_open(const struct lent *lent, uint8_t connection);
uint32_t twin_close(const struct lent *lent, uint8_t connection);
uint32_t twin_connected(const struct lent *lent, uint8_t connection);
uint32_t twin_lost(const struct lent *lent, uint8_t connection, bool *failed);
uint32_t twin_cancel(const struct lent *lent, uint8_t connection);
uint32_t twin_set_remote(const struct lent *lent, uint8_t connection, struct remote remote);
uint32_t twin_switch(const struct lent *lent, uint8_t connection, uint8_t number, bool on);
uint32_t twin_switch_all(const struct lent *lent, uint8_t number, bool on);
uint32_t twin_take(const struct lent *lent, uint8_t connection, const uint8_t *segment, size_t length, struct outcome *outcome);
uint32_t twin_walk_event(const struct lent *lent, uint8_t connection, const uint8_t *datagram, size_t length, size_t place,
                         struct outcome *outcome);
uint32_t twin_transmit(const struct lent *lent, uint16_t pdu, const uint8_t *payload, size_t length, size_t *refused_at);
uint32_t twin_take_waiting(const struct lent *lent, uint8_t connection, uint8_t *out, size_t room, size_t *count,
                           struct remote *remote);
/* The bit worth 2 to the k: a transfer on connection k failed. */
uint32_t twin_tick(const struct lent *lent, uint16_t *failed);
uint32_t twin_many_ticks(const struct lent *lent, uint32_t count, uint16_t *failed);
/* Events with their answers written as docs/EVENTS.md has them; each gives the length of the answer. An out buffer has 16,384 bytes. */
size_t twin_segment(const struct lent *lent, uint8_t connection, const uint8_t *segment, size_t length, uint8_t *out);
size_t twin_ticks(const struct lent *lent, uint32_t count, uint8_t *out);
uint32_t twin_datagram(const struct lent *lent, uint8_t group, struct remote source, uint8_t *met);
uint32_t twin_accept(const struct lent *lent, uint8_t group, struct remote source, uint8_t *met);
/* An event by its number, with a body that fits it (docs/EVENTS.md); its answer and that answer's length, the same way. */
size_t twin_event(const struct lent *lent, unsigned number, const uint8_t *body, uint8_t *out);
/* The same of any number and any body: 0, and nothing changes, where there is no such event, the body does not fit it, or the out buffer is
 * shorter than 16,384 bytes. */
size_t twin_dispatch(const struct lent *lent, unsigned number, const uint8_t *body, size_t length, uint8_t *out, size_t room);
/* The foreman's report of one run: per route PDUs, bytes, smallest and largest length, per connection drops 20 to 24; the length of each running
 * transfer; whether every sum was made. */
struct figures {
    uint64_t pdus, bytes;
    uint32_t smallest, largest;
};
struct report {
    struct figures routes[64];
    uint64_t drops[16][5];
    uint32_t kept[16];
    bool fits;
};
/* Replays a recording (replay.c), and counts it where there is a report; whether every answer is the recorded one. */
bool twin_replay(const struct lent *lent, const uint8_t *recording, size_t length, uint8_t *out, struct report *report);

#endif
