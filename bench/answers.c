/* answers.c: a table image and a script's entries on standard input (docs/EVENTS.md); of each event the twins' answer in hex, a line each,
 * which is empty where it is refused; then the records and counts in hex, as a start state has them, and a digest of both memories. */
#include "events.h"
#include "system.h"
#include "table.h"

static uint8_t input[4 << 20], out[16384], rx[16 * 1464], tx[16 * 1472];
static struct state state;

static void put_hex(const uint8_t *bytes, size_t length)
{
    for (size_t i = 0; i < length; i++)
        printf("%02x", bytes[i]);
    printf("\n");
}

static uint64_t number(const uint8_t *at, unsigned width)
{
    uint64_t value = 0;
    while (width-- > 0)
        value = value << 8 | *at++;
    return value;
}

static struct record read_record(const uint8_t *at)
{
    struct record c = {.mode = at[0], .open_wanted = at[1], .close_wanted = at[2], .switches = be32(at + 22), .part = at[26], .route = at[27]};
    uint64_t value = number(at + 30, 8);
    c.remote = (struct remote){.address = be32(at + 16), .port = be16(at + 20)};
    c.held = be16(at + 28);
    c.length = c.part == PAYLOAD_BYTES ? (uint16_t)value : 0;
    c.value = c.part == PAYLOAD_BYTES ? 0 : value;
    c.used = be16(at + 38);
    c.timer = be16(at + 40);
    c.due = at[42];
    c.alive = be16(at + 43);
    c.remote_set = at[45];
    return c;
}

static void print_record(const struct record *c)
{
    printf("%02x%02x%02x04000000000000000000000000%08x%04x%08x", c->mode, c->open_wanted, c->close_wanted, c->remote.address, c->remote.port, c->switches);
    printf("%02x%02x%04x%016llx", c->part, c->route, c->held, (unsigned long long)(c->part == PAYLOAD_BYTES ? c->length : c->value));
    printf("%04x%04x%02x%04x%02x\n", c->used, c->timer, c->due, c->alive, c->remote_set);
}

static void start_from(const uint8_t *body)
{
    for (size_t i = 0; i < 16; i++)
        state.connections[i] = read_record(body + 46 * i);
    state.drops[0] = be32(body + 736);
    state.drops[1] = be32(body + 740);
    memcpy(rx, body + 744, sizeof rx);
    memcpy(tx, body + 744 + sizeof rx, sizeof tx);
}

/* FNV-1a of 32 bits, both memories one after the other. */
static uint32_t digest(void)
{
    uint32_t value = 0x811C9DC5;
    for (size_t i = 0; i < sizeof rx + sizeof tx; i++)
        value = (value ^ (i < sizeof rx ? rx[i] : tx[i - sizeof rx])) * 0x01000193;
    return value;
}

int main(void)
{
    size_t length = 0;
    long got;
    while ((got = read(0, input + length, sizeof input - length)) > 0)
        length += (size_t)got;
    size_t at = 36 + 2u * be16(input + 6) + 16u * (be16(input + 14) + be16(input + 22) + be16(input + 30));
    struct lent lent = {.image = input, .image_length = at, .state = &state, .rx = rx, .rx_length = sizeof rx, .tx = tx, .tx_length = sizeof tx};
    twin_fresh(input, at, &state);
    while (at < length) {
        unsigned event = be16(input + at);
        const uint8_t *body = input + at + 8;
        size_t size = be32(input + at + 4);
        at += 8 + size;
        if (event == 65535)
            start_from(body);
        else
            put_hex(out, twin_dispatch(&lent, event, body, size, out, sizeof out));
    }
    for (size_t i = 0; i < 16; i++)
        print_record(&state.connections[i]);
    printf("%08x%08x\nmemory %08x\n", state.drops[0], state.drops[1], digest());
    return 0;
}
