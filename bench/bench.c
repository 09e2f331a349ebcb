/* bench.c: calls one function many times, for a counter of instructions. The loop is a twin of framing without memcpy.
 *
 *   bench ours|twin table QUARTERS IDS TIMES     checks a table with QUARTERS/4 of the most rows; IDS is rising or random
 *   bench ours|twin walk QUARTERS LENGTH TIMES   walks to a PDU of LENGTH bytes under such a table, on its last route
 *   bench ours|twin|loop frame ID LENGTH TIMES   frames a payload of LENGTH bytes
 *   bench ours|twin|loop nothing 0 0 TIMES       calls none: what the loop itself costs
 */
#include "image.h"
#include "soad.h"
#include "system.h"
#include "twin.h"

#include <stdbool.h>

extern int atoi(const char *text);
extern int strcmp(const char *one, const char *other);

enum side { OURS, TWIN, LOOP };

/* What each side calls. */
static __typeof__(soad_table_check) *const checks[] = {soad_table_check, twin_table_check, twin_table_check};
static __typeof__(soad_frame) *const frames[] = {soad_frame, twin_frame, twin_frame_loop};
static __typeof__(soad_walk) *const walks[] = {soad_walk, twin_walk, twin_walk};

static bool nothing(enum side side)
{
    return side <= LOOP;
}

/* One call; true when it answered 0. */
static bool check_table(enum side side)
{
    size_t place = 0;
    return checks[side](image, image_length, &place) == 0;
}

static uint8_t payload[1464], out[1472];
static uint32_t id;
static size_t length, connection;

static bool frame(enum side side)
{
    return frames[side](id, payload, length, out, sizeof out) == 0;
}

static bool walk(enum side side)
{
    size_t next, at;
    uint32_t kind, number, met, met_length;
    return walks[side](image, image_length, connection, 1, out, 8 + length, 0, &next, &kind, &number, &met, &met_length, &at) == 0 && kind == 1;
}

/* Makes ready what the words ask for. */
static bool (*prepare(char **words))(enum side side)
{
    length = (size_t)atoi(words[4]);
    if (strcmp(words[2], "nothing") == 0)
        return nothing;
    if (strcmp(words[2], "table") == 0) {
        make_image((unsigned)atoi(words[3]), strcmp(words[4], "rising") == 0);
        return check_table;
    }
    if (strcmp(words[2], "frame") == 0) {
        id = (uint32_t)atoi(words[3]);
        return frame;
    }
    unsigned quarters = (unsigned)atoi(words[3]);
    make_image(quarters, 1);
    connection = 4 * quarters - 2; /* the last connection whose group is UDP, and its last route */
    id = id_of(16 * quarters - 2, 1);
    if (twin_frame(id, payload, length, out, sizeof out) != 0)
        die("bench: no frame to walk");
    return walk;
}

int main(int count, char **words)
{
    if (count != 6)
        die("usage: bench ours|twin|loop table|walk|frame|nothing QUARTERS|ID IDS|LENGTH TIMES");
    enum side side = strcmp(words[1], "ours") == 0 ? OURS : strcmp(words[1], "twin") == 0 ? TWIN : LOOP;
    bool (*call)(enum side side) = prepare(words);
    for (int left = atoi(words[5]); left > 0; left--)
        if (!call(side))
            die("bench: a call was refused");
    return printf("OK\n") < 0;
}
