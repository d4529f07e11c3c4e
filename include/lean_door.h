/* The door of the lean curve composer, for the drive's firmware.
 *
 * One function on bytes. Every number of two bytes is little-endian; "signed" is two's complement.
 *
 * A request that carries the age of its tilt sample, LEAN_AGED_REQUEST:
 *
 *   byte 0, 1   length of the whole record
 *   byte 2, 3   kind, 0x0002
 *   byte 4      form: 1 curve, 2 tensor surface, 3 triangular surface
 *   byte 5      first degree: m, l or n
 *   byte 6      second degree: 0, m or 0
 *   byte 7      N, the path's degree
 *   byte 8, 9   age of the tilt sample in milliseconds, unsigned; above 250 it is refused
 *   byte 10..   control values in 0.01 mm, signed, -4096 to 4096: m+1, (l+1)(m+1) or (n+1)(n+2)/2 of them;
 *               then path numbers in 1/1024, signed, 0 to 1024: 1, 2 or 3 times N+1 of them
 *
 * A request that carries no age, LEAN_REQUEST: the same with kind 0x0001 and without the two bytes of the age, so that its
 * control values begin at byte 8. No age means old: it is refused as LEAN_STALE.
 *
 * A reply to either, LEAN_REPLY:
 *
 *   byte 0, 1   length of the whole record, 8 + 2 * count
 *   byte 2, 3   kind, 0x8001
 *   byte 4      number: 0 accepted, else a LEAN_ refusal
 *   byte 5      place: the least bad index (VALUE, PARAMETER), the least bad point (BALANCE), else 0
 *   byte 6      count: L + 1 points, 0 for a refusal
 *   byte 7      0
 *   byte 8..    the rounded control points in 0.01 mm, signed, count of them
 */
#ifndef LEAN_DOOR_H
#define LEAN_DOOR_H

#include "lean_version.h"

#include <stddef.h>
#include <stdint.h>

#ifdef __cplusplus
extern "C" {
#endif

enum {
    LEAN_REQUEST = 0x0001,
    LEAN_AGED_REQUEST = 0x0002,
    LEAN_REPLY = 0x8001,
    LEAN_HEAD = 8,           /* bytes before the body of a request without an age, and before a reply's points */
    LEAN_AGED_HEAD = 10,     /* bytes before the body of a request with an age */
    LEAN_MOST_AGE = 250,     /* the greatest age, in milliseconds, that is accepted */
    LEAN_REPLY_ROOM = 58,    /* a reply needs this much room, whatever it says */
    LEAN_MOST_POINTS = 25,
    LEAN_MOST_REQUEST = 82   /* bytes of the longest request that can be accepted: 10, and two for each of 15 values and 21 path
                                numbers */
};

/* Where a record's fields stand: of both, of a request, and of a reply. */
enum {
    LEAN_AT_LENGTH = 0,
    LEAN_AT_KIND = 2,
    LEAN_AT_FORM = 4,
    LEAN_AT_FIRST = 5,
    LEAN_AT_SECOND = 6,
    LEAN_AT_N = 7,
    LEAN_AT_AGE = 8,
    LEAN_AT_NUMBER = 4,
    LEAN_AT_PLACE = 5,
    LEAN_AT_COUNT = 6
};

/* The number in byte 4 of a reply, in the order of judgement. */
enum {
    LEAN_ACCEPTED = 0,
    LEAN_FRAME = 9,     /* fewer than 8 bytes, or than 10 with an age; a length that is not the record's; another kind; or,
                           after STALE, a body that is not exactly as long as the degrees say */
    LEAN_KIND = 1,      /* form is not 1, 2 or 3 */
    LEAN_DEGREE = 2,    /* r above 4, N above 6, or a second degree in forms 1 and 3 */
    LEAN_STALE = 10,    /* the tilt sample is older than 250 ms, or the request carries no age */
    LEAN_VALUE = 6,     /* a control value beyond its bounds */
    LEAN_PARAMETER = 7, /* a path number beyond its bounds */
    LEAN_BALANCE = 8    /* form 3: x+y+z of a point is not 1024 */
};

/* Judges and composes one request. Writes the reply to the front of reply and returns its byte count; the bytes beyond it
 * stay. Under LEAN_REPLY_ROOM bytes of room nothing is written and 0 is returned. The two ranges must not overlap, and
 * neither pointer may be null, also where its length is 0. Any bytes are a legal request. It always returns.
 *
 * The numbers 3, 4 and 5 (SURFACE, PATH, ROOM of lean.h) never come from the door: a body of another length is FRAME, and the
 * reply room is asked for first.
 *
 * Reentrant: it keeps nothing between calls (no data, no bss), allocates nothing and calls nothing but memcpy, memmove, memset
 * and memcmp. Bytes may stand at any address. It uses the vector registers (SSE2 on x86-64, NEON on AArch64) for whole numbers
 * too: an interrupt that calls it must save them. What it takes of stack, time and code: docs/FIRMWARE.md. */
size_t door_reply(const uint8_t *request, size_t request_length, uint8_t *reply, size_t reply_length) LEAN_NONNULL;

#ifdef __cplusplus
}
#endif

#endif
