/* Composes patches as a survey does: worked patches without symmetry, the largest one, each refusal also where the next one holds, and
 * exact and short room, with guard places behind both arrays and behind the answer. Prints a line for each case and fails where one is
 * not as the header says. */
#include "lean.h"

#include <inttypes.h>
#include <stdio.h>

enum { ROOM = LEAN_PATCH_MOST_PLACES + 3, FILL = -77, GUARD = 1 };

static int cases;

struct asked {
    uint32_t n, N;
    const int32_t *surface;
    size_t values;
    const int32_t *path;
    size_t numbers;
    size_t exact_room, points_room;
};

/* One call: the words, `count` places of both arrays, and every other place and word as it was. */
static int check(const char *name, struct asked a, size_t words_room, uint64_t number, uint64_t place, size_t count, const int64_t *exact,
                 const int32_t *points)
{
    const uint64_t want[LEAN_PATCH_WORDS] = {number, place, count};
    const int fits = words_room >= LEAN_PATCH_WORDS;
    int64_t numerators[ROOM];
    int32_t rounded[ROOM];
    uint64_t words[LEAN_PATCH_WORDS + GUARD];
    uint32_t code;
    size_t i;

    for (i = 0; i < ROOM; i++) {
        numerators[i] = FILL;
        rounded[i] = FILL;
    }
    for (i = 0; i < LEAN_PATCH_WORDS + GUARD; i++) {
        words[i] = 77;
    }
    code = lean_patch(a.n, a.N, a.surface, a.values, a.path, a.numbers, numerators, a.exact_room, rounded, a.points_room, words, words_room);
    if (code != (fits ? 0u : 1u)) {
        printf("%s: %" PRIu32 " returned\n", name, code);
        return 1;
    }
    for (i = 0; i < LEAN_PATCH_WORDS + GUARD; i++) {
        uint64_t right = fits && i < LEAN_PATCH_WORDS ? want[i] : 77;
        if (words[i] != right) {
            printf("%s: word %zu is %" PRIu64 ", not %" PRIu64 "\n", name, i, words[i], right);
            return 1;
        }
    }
    for (i = 0; i < ROOM; i++) {
        int written = fits && i < count;
        int64_t right = written ? exact[i] : FILL;
        int32_t near = written ? points[i] : FILL;
        if (numerators[i] != right || rounded[i] != near) {
            printf("%s: place %zu is %" PRId64 ", %" PRId32 ", not %" PRId64 ", %" PRId32 "\n", name, i, numerators[i], rounded[i], right, near);
            return 1;
        }
    }
    cases++;
    printf("%s: as it should be\n", name);
    return 0;
}

int main(void)
{
    static const int32_t plane[] = {10, 20, 30};
    static const int32_t plane_path[] = {512, 256, 256, 0, 1000, 24, 1024, 0, 0};
    static const int64_t plane_exact[] = {23040, 20240, 30720};
    static const int32_t plane_points[] = {23, 20, 30};
    static const int32_t curved[] = {5, -7, 11, 13, -17, 190};
    static const int32_t curved_path[] = {100, 200, 724, 700, 24, 300, 0, 1024, 0};
    static const int64_t curved_exact[] = {4136080, 36909536, 98344336, -9355264, -28131328, 11534336};
    static const int32_t curved_points[] = {4, 18, 94, -4, -13, 11};
    static const int32_t bent[] = {-400, 350, 77};
    static const int32_t bent_path[] = {0, 0, 1024, 1000, 20, 4, 300, 300, 424, 512, 0, 512, 7, 900, 117, 1024, 0, 0};
    static const int64_t bent_exact[] = {-409600, 164800, -41500, -330752, 537478, 78848};
    static const int32_t bent_points[] = {-400, 80, -41, -162, 262, 77};
    static const int32_t beyond[] = {1, 2, 4097};
    static const int32_t late[] = {512, 256, 256, 0, 1000, 25, 1025, 0, 0};
    static const int32_t uneven[] = {512, 256, 256, 0, 1000, 25, 1024, 0, 1};
    static const int32_t one[] = {-77};
    static const int32_t one_path[] = {1, 2, 1021};
    static const int64_t one_exact[] = {-77};
    const struct asked flat = {1, 1, plane, 3, plane_path, 9, 3, 3};
    struct asked a;
    int bad = 0;

    bad += check("a plane piece", flat, 3, 0, 0, 3, plane_exact, plane_points);
    a = flat;
    a.exact_room = ROOM;
    a.points_room = ROOM;
    bad += check("with room to spare", a, 4, 0, 0, 3, plane_exact, plane_points);
    a = (struct asked){2, 1, curved, 6, curved_path, 9, 6, 6};
    bad += check("degrees 2 and 1", a, 3, 0, 0, 6, curved_exact, curved_points);
    a = (struct asked){1, 2, bent, 3, bent_path, 18, 6, 6};
    bad += check("degrees 1 and 2", a, 3, 0, 0, 6, bent_exact, bent_points);
    a = (struct asked){0, 0, one, 1, one_path, 3, 1, 1};
    bad += check("one control value", a, 3, 0, 0, 1, one_exact, one);

    a = flat;
    a.n = 4;
    a.values = 0;
    bad += check("DEGREE of the surface", a, 3, 2, 0, 0, NULL, NULL);
    a = flat;
    a.N = UINT32_MAX;
    bad += check("DEGREE of the domain", a, 3, 2, 0, 0, NULL, NULL);
    a = flat;
    a.values = 2;
    a.numbers = 3;
    bad += check("SURFACE before PATH", a, 3, 3, 0, 0, NULL, NULL);
    a = flat;
    a.numbers = 6;
    a.points_room = 2;
    bad += check("PATH before ROOM", a, 3, 4, 0, 0, NULL, NULL);
    a = (struct asked){1, 1, beyond, 3, late, 9, 3, 2};
    bad += check("ROOM before VALUE", a, 3, 5, 0, 0, NULL, NULL);
    a.points_room = 3;
    bad += check("VALUE before PARAMETER", a, 3, 6, 2, 0, NULL, NULL);
    a.surface = plane;
    bad += check("PARAMETER before BALANCE", a, 3, 7, 6, 0, NULL, NULL);
    a.path = uneven;
    bad += check("BALANCE", a, 3, 8, 1, 0, NULL, NULL);

    bad += check("two words", flat, 2, 0, 0, 3, plane_exact, plane_points);
    printf("%d cases, %d bad\n", cases, bad);
    return bad != 0;
}
