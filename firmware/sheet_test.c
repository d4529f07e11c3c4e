/* The daily sheet from C, by include/lean.h: a small day of six replies, whole, byte by byte, and with a pair that is cut off. The
 * numbers are reckoned by hand. */
#include "lean.h"

#include <stdio.h>
#include <string.h>

static const uint8_t day[] = {
    /* accepted, points 0 and 100 */
    8, 0, 1, 0, 9, 9, 9, 9, 12, 0, 1, 0x80, 0, 0, 2, 0, 0, 0, 100, 0,
    /* STALE */
    8, 0, 1, 0, 9, 9, 9, 9, 8, 0, 1, 0x80, 10, 0, 0, 0,
    /* accepted, points -5, 7 and -4096 */
    8, 0, 1, 0, 9, 9, 9, 9, 14, 0, 1, 0x80, 0, 0, 3, 0, 0xfb, 0xff, 7, 0, 0x00, 0xf0,
    /* VALUE at place 2 */
    8, 0, 1, 0, 9, 9, 9, 9, 8, 0, 1, 0x80, 6, 2, 0, 0,
    /* odd: number 11 */
    8, 0, 1, 0, 9, 9, 9, 9, 8, 0, 1, 0x80, 11, 0, 0, 0,
    /* cut off */
    8, 0, 1, 0, 9, 9, 9, 9, 8, 0, 1};

struct state {
    uint8_t held[LEAN_SHEET_HELD];
    uint64_t counts[LEAN_SHEET_COUNTS];
    uint64_t refusals[LEAN_SHEET_REFUSALS];
    int64_t span[LEAN_SHEET_SPAN];
};

static void take(struct state *s, const uint8_t *part, size_t length)
{
    lean_sheet(s->held, s->counts, s->refusals, s->span, part, length);
}

static int wrong(const char *what)
{
    fprintf(stderr, "sheet_test: %s\n", what);
    return 1;
}

int main(void)
{
    struct state whole, parts;
    memset(&whole, 0, sizeof whole);
    memset(&parts, 0, sizeof parts);
    take(&whole, day, sizeof day);
    static const uint64_t refusals[LEAN_SHEET_REFUSALS] = {2, 0, 0, 0, 0, 0, 1, 0, 0, 0, 1};
    if (whole.counts[0] != 11 || whole.counts[1] != 1 || whole.counts[2] != 1) return wrong("the counts");
    if (memcmp(whole.refusals, refusals, sizeof refusals) != 0) return wrong("the refusals");
    if (whole.span[0] != -4096 || whole.span[1] != 100) return wrong("the span");
    if (memcmp(whole.held, day + sizeof day - 11, 11) != 0 || whole.held[11] != 0) return wrong("the pair that is cut off");
    for (size_t i = 0; i < sizeof day; i++) {
        take(&parts, day + i, 1);
        take(&parts, day, 0);
    }
    if (memcmp(&whole, &parts, sizeof whole) != 0) return wrong("byte by byte it is another state");
    puts("sheet_test: the small day is as reckoned, at once and byte by byte");
    return 0;
}
