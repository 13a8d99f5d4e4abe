/* The check of a table record, for firmware in C. */
#ifndef NAPKINRIDGE_H
#define NAPKINRIDGE_H

#include <stddef.h>
#include <stdint.h>

#ifdef __cplusplus
extern "C" {
#endif

/*
 * Checks the table record in the `length` bytes from `record` on.
 *
 * Returns 0 if the record is taken. Otherwise it is refused, and the result is
 * the refusal's number times 65,536 plus its place, so that number and place
 * are `result >> 16` and `result & 0xFFFF`:
 *
 *   1  there are no bytes                          place 0
 *   2  the bit map has bit 6 or bit 7              place 0
 *   3  the bit map has none of the bits 0 to 3     place 0
 *   4  fewer bytes than the bit map asks for       place: how many there are
 *   5  more bytes than the bit map asks for        place: how many it asks for
 *   6  some field is outside its limits            place: where the earliest one begins
 *
 * Where several apply, the first in this list is told.
 *
 * What the caller owes: `record` points to `length` bytes that can be read and
 * that nobody writes to during the call. It is not null, also when `length` is
 * 0: any valid pointer will do then, and nothing is read through it. `length`
 * is below 2^63.
 *
 * The bytes are read where they lie and are neither copied nor changed. Nothing
 * is allocated, and nothing is kept after the call.
 */
uint32_t napkinridge_record_check(const uint8_t *record, size_t length);

#ifdef __cplusplus
}
#endif

#endif
