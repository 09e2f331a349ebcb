/* driver.c: calls the functions of libsoad.a on a batch of requests.
 *
 * Standard input holds requests, standard output gets one answer for each, in the same order. Both are a length (4 bytes) and
 * that many bytes; numbers are big-endian. A request's first byte names the function:
 *
 *   1 table check   image                                   -> number 4, place 8
 *   2 framing       id 4, room 4, fill 1, payload           -> number 4, the out buffer's bytes
 *   3 walk          connection 8, switches 4, place 8, image length 4, image, datagram
 *                                                           -> number 4, next 8, kind 4, number 4, id 4, length 4, at 8
 *
 * Out values hold UNSET before the call and the out buffer its fill byte, so that an answer tells what stayed. Every buffer
 * ends where memory that cannot be touched begins, and what is lent for reading is compared with the request afterwards.
 */
#include "soad.h"
#include "system.h"

#define UNSET 0x5A5A5A5A5A5A5A5Au
#define MOST 0x100000 /* bytes of one request, and of one lent buffer; a multiple of PAGE */
#define BEFORE 64     /* bytes before an out buffer that are looked at, too */

/* Input and output */

static uint8_t input[1 << 16], output[1 << 16];
static size_t input_next, input_end, output_end;

static void flush(void)
{
    for (size_t done = 0; done < output_end;) {
        long n = write(1, output + done, output_end - done);
        if (n <= 0)
            die("driver: cannot write");
        done += (size_t)n;
    }
    output_end = 0;
}

static void put_bytes(const uint8_t *bytes, size_t length)
{
    for (size_t i = 0; i < length; i++) {
        if (output_end == sizeof output)
            flush();
        output[output_end++] = bytes[i];
    }
}

static void put(uint64_t value, unsigned width)
{
    uint8_t bytes[8];
    for (unsigned i = 0; i < width; i++)
        bytes[i] = (uint8_t)(value >> 8 * (width - 1 - i));
    put_bytes(bytes, width);
}

/* Reads length bytes; 0 when the input ended before the first of them. */
static int get_bytes(uint8_t *to, size_t length)
{
    for (size_t done = 0; done < length; done++) {
        if (input_next == input_end) {
            long n = read(0, input, sizeof input);
            if (n < 0 || (n == 0 && done > 0))
                die("driver: input cut off");
            if (n == 0)
                return 0;
            input_next = 0;
            input_end = (size_t)n;
        }
        to[done] = input[input_next++];
    }
    return 1;
}

static uint64_t number_at(const uint8_t *bytes, unsigned width)
{
    uint64_t value = 0;
    for (unsigned i = 0; i < width; i++)
        value = value << 8 | bytes[i];
    return value;
}

/* Lent memory: buffers that end at a page nobody may touch */

static uint8_t *new_edge(void)
{
    uint8_t *start = mmap(NULL, MOST + PAGE, READ_WRITE, OWN_MEMORY, -1, 0);
    if (start == (uint8_t *)-1 || mprotect(start + MOST, PAGE, NO_ACCESS) != 0)
        die("driver: no memory");
    return start + MOST;
}

static uint8_t *lend(uint8_t *edge, const uint8_t *bytes, size_t length)
{
    return memcpy(edge - length, bytes, length);
}

static void same(const uint8_t *lent, const uint8_t *bytes, size_t length)
{
    if (memcmp(lent, bytes, length) != 0)
        die("driver: a buffer lent for reading was written");
}

/* The three functions */

static uint8_t *first_edge, *second_edge;

static void table_check(const uint8_t *image, size_t length)
{
    size_t place = UNSET;
    const uint8_t *lent = lend(first_edge, image, length);
    uint32_t answer = soad_table_check(lent, length, &place);
    same(lent, image, length);
    put(12, 4);
    put(answer, 4);
    put(place, 8);
}

static void frame(const uint8_t *request, size_t length)
{
    uint32_t id = (uint32_t)number_at(request, 4);
    size_t room = number_at(request + 4, 4);
    uint8_t fill = request[8];
    if (room > MOST - BEFORE)
        die("driver: out buffer too long");
    const uint8_t *lent = lend(first_edge, request + 9, length - 9);
    uint8_t *out = second_edge - room;
    memset(out - BEFORE, fill, room + BEFORE);
    uint32_t answer = soad_frame(id, lent, length - 9, out, room);
    same(lent, request + 9, length - 9);
    for (unsigned i = 1; i <= BEFORE; i++)
        if (out[-(int)i] != fill)
            die("driver: a byte before the out buffer was written");
    put(4 + room, 4);
    put(answer, 4);
    put_bytes(out, room);
}

static void walk(const uint8_t *request, size_t length)
{
    size_t connection = number_at(request, 8), place = number_at(request + 12, 8);
    uint32_t switches = (uint32_t)number_at(request + 8, 4);
    size_t image_length = number_at(request + 20, 4);
    if (image_length > length - 24)
        die("driver: malformed walk");
    size_t datagram_length = length - 24 - image_length;
    const uint8_t *image = lend(first_edge, request + 24, image_length);
    const uint8_t *datagram = lend(second_edge, request + 24 + image_length, datagram_length);
    size_t next = UNSET, at = UNSET;
    uint32_t kind = (uint32_t)UNSET, number = (uint32_t)UNSET, id = (uint32_t)UNSET, pdu_length = (uint32_t)UNSET;
    uint32_t answer = soad_walk(image, image_length, connection, switches, datagram, datagram_length, place, &next, &kind,
                                &number, &id, &pdu_length, &at);
    same(image, request + 24, image_length);
    same(datagram, request + 24 + image_length, datagram_length);
    put(36, 4);
    put(answer, 4);
    put(next, 8);
    put(kind, 4);
    put(number, 4);
    put(id, 4);
    put(pdu_length, 4);
    put(at, 8);
}

static void answer(const uint8_t *request, size_t length)
{
    if (length >= 1 && request[0] == 1)
        table_check(request + 1, length - 1);
    else if (length >= 10 && request[0] == 2)
        frame(request + 1, length - 1);
    else if (length >= 25 && request[0] == 3)
        walk(request + 1, length - 1);
    else
        die("driver: unknown or malformed request");
}

/* A function that leaves its buffers: the answers so far go out, so that the request without an answer is known. */
static void stray(int number)
{
    (void)number;
    flush();
    die("driver: memory was touched that was not lent");
}

int main(void)
{
    static uint8_t size[4], request[MOST];
    signal(BAD_ADDRESS, stray);
    first_edge = new_edge();
    second_edge = new_edge();
    while (get_bytes(size, 4)) {
        size_t length = number_at(size, 4);
        if (length > MOST || (length > 0 && !get_bytes(request, length)))
            die("driver: malformed request");
        answer(request, length);
    }
    flush();
    return 0;
}
