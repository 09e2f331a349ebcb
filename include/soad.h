/* soad.h: the Socket Adaptor core as a C program meets it.
 *
 * The functions stand in libsoad.a, for x86-64. Each is total: any numbers and any buffers get an answer from the table
 * below. The caller owes what C always owes: a buffer can be read (an out buffer written) over the length that is given with
 * it (with length 0 any pointer will do, NULL too), an out buffer overlaps no other buffer of the call, and out pointers point to
 * objects of their own. Nothing is kept between two calls.
 *
 * Numbers in an image and in a header are big-endian. Places and lengths count bytes, places from 0.
 */
#ifndef SOAD_H
#define SOAD_H

#include <stddef.h>
#include <stdint.h>

#ifdef __cplusplus
extern "C" {
#endif

/* Answer numbers. "Changes nothing" holds for every answer but 0: state, lent memory and out values stay as they were, save
 * the place that 1 gives. Answers that only the core's events give are listed too: the numbers are the same everywhere. */
enum soad_answer {
    /* Done. Use the values. */
    SOAD_DONE = 0,

    /* The table image is refused, and a place in it tells why: 0, shorter than 36 bytes or wrong in bytes 0..3; 4, 12, 20 or
     * 28, the first bad contents entry (wrong kind, too many rows, wrong offset); 2, another length than the contents say; 36
     * or more, where the first bad row starts. Mend the image at that place; load nothing from it. */
    SOAD_TABLE_REFUSED = 1,

    /* A connection, group or switch number that is not there. Look at the number the caller gave. */
    SOAD_NOT_THERE = 2,

    /* Not allowed for this protocol, mode or argument: a walk on a TCP connection or from a place beyond the end, a source
     * with address 0 or port 0, an event in the wrong mode. Repeating the call does not help; another event must come first,
     * or another one was meant. */
    SOAD_NOT_ALLOWED = 3,

    /* Segment, walk or transmit on a connection that is not online or has close wanted. Wait until it is online again. */
    SOAD_NOT_ONLINE = 4,

    /* Transmit: no destination has this PDU. The table does not know it; nothing was stored. */
    SOAD_NO_DESTINATION = 5,

    /* Transmit: every destination of the PDU is switched off. Nothing was stored; switch one on, or leave it. */
    SOAD_ALL_SWITCHED_OFF = 6,

    /* Transmit: the payload is longer than a switched-on destination allows. Framing: longer than 1,464. Shorten it. */
    SOAD_TOO_LONG = 7,

    /* Transmit: flush first, since used + 8 + length exceeds the send size. Take the waiting bytes, then transmit again. */
    SOAD_FLUSH_FIRST = 8,

    /* The out buffer is too short: for the waiting bytes; in framing, for 8 + length. Give a longer one. */
    SOAD_NO_ROOM = 9,

    /* Datagram or accept: no connection matches this source. Drop the datagram, or refuse the peer. */
    SOAD_NO_MATCH = 10,

    /* Lent receive memory has another length than 23,424 bytes, or lent send memory than 23,552. A mistake in the program. */
    SOAD_WRONG_MEMORY = 11,

    /* State or table are not sound. They were not made by this core, or were overwritten: start fresh. */
    SOAD_NOT_SOUND = 12
};

/* Why a header was dropped; the first that applies, 23 before the others. */
enum soad_drop {
    SOAD_DROP_NO_ROUTE = 20,     /* no receive route of the connection has this id */
    SOAD_DROP_SWITCHED_OFF = 21, /* its groups share no set bit with the switches, and are not 0 */
    SOAD_DROP_TOO_LONG = 22,     /* longer than the route's longest payload */
    SOAD_DROP_CUT = 23           /* datagram only: 1..7 bytes left (id and length are then 0), or a length beyond the end */
};

/* Checks a table image.
 *   0  accepted; *place stays as it was.
 *   1  refused; *place is set (see SOAD_TABLE_REFUSED). */
uint32_t soad_table_check(const uint8_t *image, size_t image_length, size_t *place);

/* Writes a header (id 4 bytes, length 4 bytes) and the payload to the front of out; the bytes after them stay.
 *   0  written: 8 + payload_length bytes.
 *   7  payload longer than 1,464 bytes.
 *   9  out shorter than 8 + payload_length bytes. 7 is tested first. */
uint32_t soad_frame(uint32_t id, const uint8_t *payload, size_t payload_length, uint8_t *out, size_t out_length);

/* What a walk met. */
enum soad_walk_kind {
    SOAD_WALK_END = 0, /* the end of the datagram: number, id, length and at are 0, next is the end */
    SOAD_WALK_PDU = 1, /* a PDU: number is its receive route's row, from 0; its payload is datagram[at .. at + length] */
    SOAD_WALK_DROP = 2 /* a dropped header: number is the reason, 20..23; at is 0 */
};

/* Walks one step through a datagram from a place (first 0, then the last call's next). Counts nothing and keeps nothing.
 *   0  next, kind, number, id, length and at are set.
 *   1  the image is refused (soad_table_check gives the place).
 *   2  the table has no such connection.
 *   3  a TCP connection, or a place beyond the end. */
uint32_t soad_walk(const uint8_t *image, size_t image_length, size_t connection, uint32_t switches, const uint8_t *datagram,
                   size_t datagram_length, size_t place, size_t *next, uint32_t *kind, uint32_t *number, uint32_t *id,
                   uint32_t *length, size_t *at);

#ifdef __cplusplus
}
#endif

#endif
