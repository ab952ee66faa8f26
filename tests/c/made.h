/* Frames made for the tests. */
#ifndef MADE_H
#define MADE_H

#include "rei2.h"

/* In each the address, byte 2, is a space. */

/* A good static request, REI2_REQUEST_SIZE bytes, with this key: the number as three digits. */
void make_request(uint8_t *to, char requester, const char *number);

/* A good static reply, REI2_REPLY_SIZE bytes, with raw timing and this key: the number as five digits. */
void make_reply(uint8_t *to, char status, char requester, const char *number);

/* Gives a reply this letter, and a time and a date that are good with it. */
void put_letter(uint8_t *reply, char letter);

/* A good dynamic request, REI2_DYNAMIC_SIZE bytes. */
void make_dynamic(uint8_t *to);

/* Where the fields of each kind begin, and a 0 after the last. */
extern const uint8_t request_fields[], reply_fields[], dynamic_fields[];

/* Where the field begins that a byte belongs to. */
uint32_t field_of(const uint8_t *fields, size_t at);

/* The place of a letter or a status in its order; the order's length if it is not there. */
size_t place_in(const char *order, uint8_t code);

/* Bytes without a pattern, the same for the same seed. */
void fill(void *at, size_t size, uint32_t seed);

#endif
