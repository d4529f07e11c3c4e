/* Calls the f64 card as the new drive card's firmware does: worked parts, each kind of number that is no path number at either
 * place, minus zero, each refusal before the later ones, short arrays, with guards around what is lent. Compares by bits. Prints a
 * line for each case and fails where one is not as the header says. */
#include "lean.h"

#include <stdio.h>
#include <string.h>

enum { GUARD = 2, FIVE = LEAN_CARD_NUMERATORS, THREE = LEAN_CARD_WORDS };

static const uint64_t FILL = 0xa5a5a5a5a5a5a5a5u;

static int cases;

static double of_bits(uint64_t bits)
{
    double x;
    memcpy(&x, &bits, sizeof x);
    return x;
}

static uint64_t bits_of(double x)
{
    uint64_t bits;
    memcpy(&bits, &x, sizeof bits);
    return bits;
}

struct part {
    uint32_t m;
    const int32_t *surface;
    size_t values;
    uint32_t line;
    double first;
    double second;
};

/* One call on `room` numbers and `words_room` words between guards: the code, the bits of every number and every word must be as
 * said. */
static int called(const char *name, struct part p, size_t room, size_t words_room, uint32_t code, const uint64_t *words, const double *record)
{
    double numbers[GUARD + FIVE + GUARD];
    uint64_t lent[GUARD + THREE + GUARD];
    size_t k;
    uint32_t answered;

    for (k = 0; k < sizeof numbers / sizeof *numbers; k++) {
        numbers[k] = of_bits(FILL);
    }
    for (k = 0; k < sizeof lent / sizeof *lent; k++) {
        lent[k] = FILL;
    }
    answered = lean_card(p.m, p.surface, p.values, p.line, p.first, p.second, numbers + GUARD, room, lent + GUARD, words_room);
    if (answered != code) {
        printf("%s: %u is returned, not %u\n", name, (unsigned)answered, (unsigned)code);
        return 1;
    }
    for (k = 0; k < sizeof numbers / sizeof *numbers; k++) {
        uint64_t right = FILL;
        if (code == 0 && k >= GUARD && k < GUARD + FIVE) {
            right = bits_of(record[k - GUARD]);
        }
        if (bits_of(numbers[k]) != right) {
            printf("%s: number %ld is %016llx, not %016llx\n", name, (long)k - GUARD, (unsigned long long)bits_of(numbers[k]),
                   (unsigned long long)right);
            return 1;
        }
    }
    for (k = 0; k < sizeof lent / sizeof *lent; k++) {
        uint64_t right = FILL;
        if (code == 0 && k >= GUARD && k < GUARD + THREE) {
            right = words[k - GUARD];
        }
        if (lent[k] != right) {
            printf("%s: word %ld is %llu, not %llu\n", name, (long)k - GUARD, (unsigned long long)lent[k], (unsigned long long)right);
            return 1;
        }
    }
    cases++;
    printf("%s: as it should be\n", name);
    return 0;
}

static int accepted(const char *name, struct part p, uint64_t count, const double *record)
{
    const uint64_t words[THREE] = {0, 0, count};
    return called(name, p, FIVE, THREE, 0, words, record);
}

static int refused(const char *name, struct part p, uint64_t number, uint64_t place)
{
    static const double none[FIVE] = {0.0, 0.0, 0.0, 0.0, 0.0};
    const uint64_t words[THREE] = {number, place, 0};
    return called(name, p, FIVE, THREE, 0, words, none);
}

/* Each of the 1,025 stays on the curve from 0 to 1: its numerator is the path number. */
static int stays(void)
{
    static const int32_t rising[] = {0, 1};
    int k;

    for (k = 0; k <= 1024; k++) {
        double numbers[FIVE] = {1.0, 1.0, 1.0, 1.0, 1.0};
        uint64_t words[THREE] = {9, 9, 9};
        uint32_t code = lean_card(1, rising, 2, LEAN_CARD_STAY, k, 0.5, numbers, FIVE, words, THREE);
        int fine = code == 0 && words[0] == 0 && words[1] == 0 && words[2] == 1 && bits_of(numbers[0]) == bits_of(k);
        int j;
        for (j = 1; j < FIVE; j++) {
            fine = fine && bits_of(numbers[j]) == 0;
        }
        if (!fine) {
            printf("a stay at %d is answered otherwise\n", k);
            return 1;
        }
    }
    cases++;
    printf("each of 1025 stays: as it should be\n");
    return 0;
}

int main(void)
{
    static const int32_t p3[] = {2, 3, -2};
    static const double p3_record[FIVE] = {2097152.0, 2621440.0, 1572864.0, 0.0, 0.0};
    static const double p3_stay[FIVE] = {1572864.0, 0.0, 0.0, 0.0, 0.0};
    static const int32_t p11[] = {0, 0, 0, 0, 4096};
    static const double p11_record[FIVE] = {4503599627370496.0, 0.0, 0.0, 0.0, 0.0};
    /* no symmetry: 13195189522432, 1247298246490112 over 4, 25536612868457856 over 6, -1123027449985824 over 4, 4005759012697 */
    static const int32_t own[] = {7, -300, 4096, 11, -2};
    static const double own_record[FIVE] = {13195189522432.0, 311824561622528.0, 4256102144742976.0, -280756862496456.0, 4005759012697.0};
    static const int32_t below[] = {0, -5};
    static const double below_record[FIVE] = {0.0, -5120.0, 0.0, 0.0, 0.0};
    static const double ends[4][FIVE] = {{0.0, 0.0}, {0.0, -5120.0}, {-5120.0, 0.0}, {-5120.0, -5120.0}};
    static const int32_t beyond[] = {7, -4097};
    static const struct {
        const char *name;
        uint64_t bits;
    } none[] = {
        {"a NaN", 0x7ff8000000000000u},
        {"a NaN with a sign", 0xfff8000000000000u},
        {"a signalling NaN", 0x7ff0000000000001u},
        {"a NaN of all ones", 0xffffffffffffffffu},
        {"infinity", 0x7ff0000000000000u},
        {"minus infinity", 0xfff0000000000000u},
        {"the least subnormal", 0x0000000000000001u},
        {"the least subnormal below 0", 0x8000000000000001u},
        {"the greatest subnormal", 0x000fffffffffffffu},
        {"0.5", 0x3fe0000000000000u},
        {"1023.5", 0x408ffc0000000000u},
        {"1024.0000000000002", 0x4090000000000001u},
        {"1025", 0x4090040000000000u},
        {"-1", 0xbff0000000000000u},
        {"1e308", 0x7fe1ccf385ebc8a0u},
    };
    struct part p;
    size_t k;
    int bad = 0;

    p = (struct part){2, p3, 3, LEAN_CARD_LINE, 0.0, 512.0};
    bad += accepted("P3 as a line", p, 3, p3_record);
    p.line = LEAN_CARD_STAY;
    p.first = 512.0;
    p.second = of_bits(0x7ff8000000000000u);
    bad += accepted("a stay passes the second number over", p, 1, p3_stay);
    p = (struct part){4, p11, 5, LEAN_CARD_STAY, 1024.0, 0.0};
    bad += accepted("P11 as a stay", p, 1, p11_record);
    p = (struct part){4, own, 5, LEAN_CARD_LINE, 1000.0, 3.0};
    bad += accepted("five numerators", p, 5, own_record);
    p = (struct part){1, below, 2, LEAN_CARD_LINE, -0.0, 1024.0};
    bad += accepted("minus zero counts as zero and never comes back", p, 2, below_record);

    for (k = 0; k < 4; k++) {
        char name[40];
        p.first = k / 2 * 1024.0;
        p.second = k % 2 * 1024.0;
        snprintf(name, sizeof name, "a line from %.0f to %.0f", p.first, p.second);
        bad += accepted(name, p, 2, ends[k]);
    }
    bad += stays();

    for (k = 0; k < sizeof none / sizeof *none; k++) {
        char name[80];
        double x = of_bits(none[k].bits);
        snprintf(name, sizeof name, "a stay at %s", none[k].name);
        bad += refused(name, (struct part){2, p3, 3, LEAN_CARD_STAY, x, 0.0}, 7, 0);
        snprintf(name, sizeof name, "a line from %s", none[k].name);
        bad += refused(name, (struct part){2, p3, 3, LEAN_CARD_LINE, x, 0.5}, 7, 0);
        snprintf(name, sizeof name, "a line to %s", none[k].name);
        bad += refused(name, (struct part){2, p3, 3, LEAN_CARD_LINE, 1024.0, x}, 7, 1);
    }
    bad += refused("degree 5, before the count", (struct part){5, beyond, 2, LEAN_CARD_STAY, 0.5, 0.0}, 2, 0);
    bad += refused("the greatest degree", (struct part){UINT32_MAX, p11, 5, LEAN_CARD_STAY, 0.0, 0.0}, 2, 0);
    bad += refused("a count, before the values", (struct part){2, beyond, 2, LEAN_CARD_STAY, 0.5, 0.0}, 3, 0);
    bad += refused("a value, before the path numbers", (struct part){1, beyond, 2, LEAN_CARD_STAY, 0.5, 0.0}, 6, 1);

    p = (struct part){2, p3, 3, LEAN_CARD_LINE, 0.0, 512.0};
    bad += called("four numerators are too few", p, FIVE - 1, THREE, 1, NULL, NULL);
    bad += called("two words are too few", p, FIVE, THREE - 1, 1, NULL, NULL);
    p.line = 2;
    bad += called("neither a stay nor a line", p, FIVE, THREE, 1, NULL, NULL);

    printf("%d cases, %d wrong\n", cases + bad, bad);
    return bad != 0;
}
