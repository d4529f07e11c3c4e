/* The lean curve composer, as C functions on numbers. (As bytes, for the drive's firmware: lean_door.h.)
 *
 * Each array is a pointer and a length in elements. Ranges must not overlap where one of them is written, and no pointer may be
 * null, also where its length is 0. Any numbers are legal, and so are arrays of any lengths: what is wrong is answered. Each
 * function always returns. Each is reentrant: it keeps nothing between calls, allocates nothing and calls nothing but memcpy,
 * memmove, memset and memcmp. An array stands where its element type may stand. Vector registers (SSE2 on x86-64, NEON on AArch64) are
 * used for whole numbers too: an interrupt that calls a function must save them. Stack, time and code size: docs/FIRMWARE.md.
 */
#ifndef LEAN_H
#define LEAN_H

#include "lean_version.h"

#include <stddef.h>
#include <stdint.h>

#ifdef __cplusplus
extern "C" {
#endif

/* ---- a ride composed: a surface F, a path G, and the curve H = F(G), exactly, in whole numbers */

enum {
    LEAN_WORDS = 4,      /* the answer's words: number, place, count, entries */
    LEAN_MOST_PLACES = 25 /* the places of the longest answer: r = 4, N = 6, L + 1 = 25 */
};

/* The answer's number, in the order of judgement, is one of enum LEAN_ in lean_door.h, without FRAME, or:
 *   3  SURFACE  count of control values is not m+1, (l+1)(m+1) or (n+1)(n+2)/2
 *   4  PATH     count of path numbers is not 1, 2 or 3 times N+1
 *   5  ROOM     high, low or points has fewer than L+1 places
 *
 * form     1 curve, 2 tensor surface, 3 triangular surface
 * first    m, l or n;  second  0, m or 0: r = m, l + m or n is at most 4
 * N        the path's degree, at most 6; L = r * N
 * age      of the tilt sample in milliseconds; above 250 it is refused
 * surface  control values in 0.01 mm, -4096 to 4096
 * path     path numbers in 1/1024, 0 to 1024
 * high     numerator R at R = 0 to L by two words, worth high * 2^64 + low: over binomial(L, R) * 1024^r it is the exact
 * low      control point. high is rounded down, so that -1 is high -1, low 2^64 - 1
 * points   the rounded control points in 0.01 mm, a half going away from zero
 * words    number, place and count of the answer: 0, 0, L + 1 where it is accepted; else the refusal's number, its place, 0;
 *          and the net entries that were formed: forms 1 and 3 accepted, at most 490 and 700; 0 for form 2 and for a refusal
 *
 * Accepted, the first L + 1 places of high, low and points are written, and every later place stays. Refused, none of the
 * three changes. Returns 0; or 1 where words has fewer than four places, and then nothing at all is written. */
uint32_t lean_compose(uint32_t form, uint32_t first, uint32_t second, uint32_t N, uint16_t age,
                      const int32_t *surface, size_t surface_length, const int32_t *path, size_t path_length,
                      int64_t *high, size_t high_length, uint64_t *low, size_t low_length,
                      int32_t *points, size_t points_length, uint64_t *words, size_t words_length) LEAN_NONNULL;

/* ---- a recorded trace, replayed: request, reply, request, reply, as bytes */

enum { LEAN_REPLAY_WORDS = 5 }; /* calls, same, differ, first, rest */

/* Asks the door afresh for each request of a whole trace and compares its reply with the recorded one. Writes to the first five words
 * how many pairs there are, how many replies are today's, how many are not, the number of the first that is not, from 1 on (0 where
 * there is none), and how many bytes are left from the pair on at which the reading ended. Any bytes are a trace. Returns 0; or 1
 * where there are fewer than five words, and then nothing is written. Later words stay. */
uint32_t lean_replay(const uint8_t *trace, size_t trace_length, uint64_t *words, size_t words_length) LEAN_NONNULL;

/* ---- a torn trace, salvaged */

enum {
    LEAN_SALVAGE_WORDS = 5, /* where the open run of skipped bytes began and how long it is; then what a call tells: skipped, kept, line */
    LEAN_SALVAGE_LINE = 47  /* the bytes of the longest line */
};

/* Looks ahead in a window: the bytes of a torn trace from where the last call left off, behind which no more come where `last` is not 0.
 * So many bytes at its front are skipped, whatever comes behind the window, and so many behind them are pairs that are kept, since the door
 * gives their replies today. words[0] and words[1], at first 0, are carried from call to call; words[2] is how many bytes are skipped, words[3]
 * how many are kept, and words[4] how many bytes of `line` are the line of a run that is over, "skip OFFSET LENGTH" and a newline. Go on
 * behind both; where both are 0 the window needs more bytes (it has less than two records then), and where none come all is told but
 * the run that is still open, words[0] and words[1]. Returns 0; or 1 where there are fewer than five words or 47 bytes of line, and
 * then nothing is written. Later words and bytes stay. */
uint32_t lean_salvage(const uint8_t *window, size_t window_length, uint32_t last, uint64_t *words, size_t words_length,
                      uint8_t *line, size_t line_length) LEAN_NONNULL;

/* ---- a trace from before the age, converted as it comes ----
 *
 * The converter is yours, in two arrays of just these sizes; all zeros have taken nothing. */
enum {
    LEAN_CONVERT_HELD = 256,   /* the bytes of the pair that is not whole yet, zeros behind them */
    LEAN_CONVERT_WORDS = 5,    /* how many bytes there are from its start on, and how many requests were changed; then what a call tells */
    LEAN_CONVERT_PART = 65536, /* the most bytes that one call takes */
    LEAN_CONVERT_ROOM = 74016  /* what so many bytes put out at most */
};

/* Takes the next part of an old trace and puts its conversion to the front of `out`: a request without an age gains an age of 0, all else is
 * copied. words[2] is how many bytes of the part were taken (all up to LEAN_CONVERT_PART; none where `out` has fewer than
 * LEAN_CONVERT_ROOM places), words[3] how many were put out, and words[4] is 1 where the trace, if it ended here, could not be converted.
 * `held` has LEAN_CONVERT_HELD places, `words` LEAN_CONVERT_WORDS; no two of the arrays overlap. Later bytes of `out` stay. */
void lean_convert(uint8_t *held, uint64_t *words, const uint8_t *part, size_t part_length, uint8_t *out, size_t out_length) LEAN_NONNULL;

/* At the end of a trace: puts what is still kept to the front of `out` and returns how many bytes that is; 0, and nothing is written, where
 * `out` has fewer than LEAN_CONVERT_HELD places. */
size_t lean_convert_end(const uint8_t *held, const uint64_t *words, uint8_t *out, size_t out_length) LEAN_NONNULL;

/* ---- the daily sheet, fed as it comes ----
 *
 * The state is yours, in four arrays of just these sizes; all zeros have taken nothing. */
enum {
    LEAN_SHEET_HELD = 256,      /* the bytes of the pair that is not whole yet, zeros behind them */
    LEAN_SHEET_COUNTS = 3,      /* how many bytes there are from its start on, odd replies, and 1 where there was a point */
    LEAN_SHEET_REFUSALS = 11,   /* how many of the other replies have each number 0 to 10 */
    LEAN_SHEET_SPAN = 2         /* the least and the most accepted point, where there was one */
};

/* Takes the next part of a trace, of any length, also none. Parts one after the other, cut anywhere, leave the state that the uncut
 * trace leaves. `held` has LEAN_SHEET_HELD places, `counts` LEAN_SHEET_COUNTS and so on; no two of the arrays overlap. */
void lean_sheet(uint8_t *held, uint64_t *counts, uint64_t *refusals, int64_t *span, const uint8_t *part, size_t part_length) LEAN_NONNULL;

/* ---- a composed net, read at a tick */

enum {
    LEAN_TICK_WORDS = 3,        /* number, place and reading */
    LEAN_TICK_POINTS = 25,      /* the most points of a net */
    LEAN_TICK_END = 1024,       /* the moment of a ride's end */
    LEAN_TICK_PARTS = 65536     /* the parts of 0.01 mm in which a reading counts */
};

/* The number of an answer, in the order of judgement; 0 is accepted. */
enum {
    LEAN_TICK_SURFACE = 3,      /* no point, or more than 25 */
    LEAN_TICK_VALUE = 6,        /* a point beyond -4096 to 4096: the place is the least such index */
    LEAN_TICK_MOMENT = 11       /* k above 1024 */
};

/* Reads the curve of a net of points, in 0.01 mm, at the moment k/1024, by de Casteljau's steps, each rounded to the nearest part
 * with halves away from zero. Writes to the first three words the number of the answer, the place (0 but for VALUE) and the
 * reading in 1/65536 of 0.01 mm (0 for a refusal), and returns 0; later words stay. With fewer than three words nothing is
 * written and 1 is returned. */
uint32_t lean_tick(const int32_t *points, size_t points_length, uint32_t k, int64_t *words, size_t words_length) LEAN_NONNULL;

/* ---- the f64 card ----
 *
 * A part of a curve of degree m, form 1, whose m + 1 control values are lent, in 0.01 mm: a stay at the path number `first`
 * where `line` is LEAN_CARD_STAY, a line from `first` to `second` where it is LEAN_CARD_LINE (a stay passes `second` over). A path
 * number is a whole 0 to 1024, in 1/1024; minus zero counts as zero.
 *
 * Writes the record to the first LEAN_CARD_NUMERATORS of `numerators`, which is the numerators over 1024^m, one for a stay and
 * m + 1 for a line, and plus zero in every other place, and three numbers to the front of `words`:
 *
 *   words[0]   number: 0 accepted, else a refusal
 *   words[1]   place: the least index of a bad control value (VALUE), 0 or 1 for the first bad path number (PARAMETER), else 0
 *   words[2]   count: how many numerators there are; 0 for a refusal, whose record is all plus zero
 *
 * Each numerator is exact: bit for bit the whole number that the composer's numerator over binomial(L, R) is, and never minus zero.
 * The floating-point environment must be C's default: rounded to nearest, subnormal numbers not read as zero.
 * The numbers in the order of judgement: 2 DEGREE (m above 4), 3 SURFACE (not m + 1 control values), 6 VALUE (a control value
 * beyond -4096 to 4096), 7 PARAMETER (a path number that is none: a NaN, an infinity, a fraction, one beyond its bounds).
 *
 * Returns 0. Where there are fewer than LEAN_CARD_NUMERATORS numerators or LEAN_CARD_WORDS words, or `line` is another number,
 * nothing at all is written and 1 is returned. Places behind those named stay as they are. */
enum {
    LEAN_CARD_STAY = 0,
    LEAN_CARD_LINE = 1,
    LEAN_CARD_NUMERATORS = 5,
    LEAN_CARD_WORDS = 3
};

uint32_t lean_card(uint32_t m, const int32_t *surface, size_t surface_length, uint32_t line, double first, double second,
                   double *numerators, size_t numerators_length, uint64_t *words, size_t words_length) LEAN_NONNULL;

/* ---- patches on patches: a triangular piece of a triangular surface, the piece curved, exactly, in whole numbers */

enum {
    LEAN_PATCH_WORDS = 3,        /* the answer's words: number, place, count */
    LEAN_PATCH_MOST_DEGREE = 3,  /* of the surface, and of the domain */
    LEAN_PATCH_MOST_PLACES = 55  /* the places of the largest answer: n = 3, N = 3 */
};

/* n        the surface's degree, at most 3: (n+1)(n+2)/2 control values
 * N        the domain's degree, at most 3: (N+1)(N+2)/2 domain points, L = n * N
 * surface  control values in 0.01 mm, -4096 to 4096
 * path     x, y, z of each domain point in 1/1024, 0 to 1024, which add up to 1024
 * exact    the numerator of each place (i, j, k) of the answer, i + j + k = L: over L!/(i! j! k!) * 1024^n it is the exact point
 * points   the rounded points in 0.01 mm, a half going away from zero
 * words    number, place and count of the answer: 0, 0, (L+1)(L+2)/2 where it is accepted; else the refusal's number, its place, 0
 *
 * Every net stands in this order: i from 0, inside it j from 0, k what they leave of the degree; x goes with i, y with j, z with k.
 *
 * The number, in the order of judgement: 2 DEGREE (n or N above 3), 3 SURFACE and 4 PATH (another count than the degrees ask for),
 * 5 ROOM (exact or points has fewer places than the answer has points), 6 VALUE (a control value beyond its bounds: the place is the
 * least such index), 7 PARAMETER (likewise a path number), 8 BALANCE (x + y + z is not 1024: the least such point's number).
 *
 * Accepted, so many places of exact and points are written as the answer has points, and every later place stays. Refused, neither
 * changes. Returns 0; or 1 where words has fewer than three places, and then nothing at all is written. */
uint32_t lean_patch(uint32_t n, uint32_t N, const int32_t *surface, size_t surface_length, const int32_t *path, size_t path_length,
                    int64_t *exact, size_t exact_length, int32_t *points, size_t points_length,
                    uint64_t *words, size_t words_length) LEAN_NONNULL;

#ifdef __cplusplus
}
#endif

#endif
