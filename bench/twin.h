/* twin.h: the C twins, functions with the same duties as those of soad.h. */
#ifndef TWIN_H
#define TWIN_H

#include <stddef.h>
#include <stdint.h>

uint32_t twin_table_check(const uint8_t *image, size_t image_length, size_t *place);

uint32_t twin_frame(uint32_t id, const uint8_t *payload, size_t payload_length, uint8_t *out, size_t out_length);

/* The same with a loop in the place of the C library's memcpy. */
uint32_t twin_frame_loop(uint32_t id, const uint8_t *payload, size_t payload_length, uint8_t *out, size_t out_length);

uint32_t twin_walk(const uint8_t *image, size_t image_length, size_t connection, uint32_t switches, const uint8_t *datagram,
                   size_t datagram_length, size_t place, size_t *next, uint32_t *kind, uint32_t *number, uint32_t *id,
                   uint32_t *length, size_t *at);

#endif
