/* What a call takes: the stack, painted before the call and looked through behind it, for the rides that take most, by form, and for each
 * other C function; those that read a trace are handed one of such rides. Prints the greatest of each function in bytes, and fails
 * where one takes more than is allowed. Under callgrind each call is one dump, in the order in which they are printed.
 *   resources stack BYTES     every function
 *   resources calls           the rides at the door, and each function whose work does not grow with its input, a call each
 */
#define _XOPEN_SOURCE 700
#include "lean.h"
#include "lean_door.h"

#include <stdio.h>
#include <stdlib.h>
#include <string.h>
#include <ucontext.h>

enum { STACK = 1 << 18, PAINT = 0x5a, RIDES = 8 };

struct ride {
    const char *name;
    uint32_t form, first, second, n;
};

/* r = 4 and N = 6 in every form and split of degrees */
static const struct ride rides[RIDES] = {
    {"form 1, degree 4", 1, 4, 0, 6},       {"form 2, degrees 4 0", 2, 4, 0, 6}, {"form 2, degrees 3 1", 2, 3, 1, 6},
    {"form 2, degrees 2 2", 2, 2, 2, 6},    {"form 2, degrees 1 3", 2, 1, 3, 6}, {"form 2, degrees 0 4", 2, 0, 4, 6},
    {"form 3, degree 4", 3, 4, 0, 6},       {"form 3, degree 3", 3, 3, 0, 6},
};

static int32_t surface[15];
static int32_t path[21];
static size_t values, numbers;
static uint8_t record[LEAN_MOST_REQUEST];
static uint8_t reply[LEAN_REPLY_ROOM];
static int64_t high[LEAN_MOST_PLACES];
static uint64_t low[LEAN_MOST_PLACES];
static int32_t points[LEAN_MOST_PLACES];
static uint64_t words[8];
static int64_t ticks[LEAN_TICK_WORDS];
static double numerators[LEAN_CARD_NUMERATORS];
static size_t length;
static const struct ride *asked;

static void put_word(uint8_t *at, int32_t word)
{
    at[0] = (uint8_t)(word & 255);
    at[1] = (uint8_t)(word >> 8 & 255);
}

/* numbers without a pattern within their bounds; every path point of form 3 is balanced */
static void lay(const struct ride *ride)
{
    uint32_t seed = 12345;
    uint8_t *at = record + LEAN_AGED_HEAD;
    size_t k;

    asked = ride;
    values = ride->form == 1 ? ride->first + 1u : ride->form == 2 ? (ride->first + 1u) * (ride->second + 1u) : (ride->first + 1u) * (ride->first + 2u) / 2;
    numbers = (ride->n + 1u) * ride->form;
    for (k = 0; k < values; k++) {
        seed = seed * 1664525u + 1013904223u;
        surface[k] = (int32_t)(seed >> 16) % 4097 * (k % 2 == 0 ? 1 : -1);
    }
    for (k = 0; k < numbers; k++) {
        seed = seed * 1664525u + 1013904223u;
        path[k] = (int32_t)(seed >> 16) % (ride->form == 3 ? 513 : 1025);
        if (ride->form == 3 && k % 3 == 2) {
            path[k] = 1024 - path[k - 1] - path[k - 2];
        }
    }
    length = LEAN_AGED_HEAD + 2 * (values + numbers);
    put_word(record + LEAN_AT_LENGTH, (int32_t)length);
    put_word(record + LEAN_AT_KIND, LEAN_AGED_REQUEST);
    put_word(record + LEAN_AT_AGE, LEAN_MOST_AGE);
    record[LEAN_AT_FORM] = (uint8_t)ride->form;
    record[LEAN_AT_FIRST] = (uint8_t)ride->first;
    record[LEAN_AT_SECOND] = (uint8_t)ride->second;
    record[LEAN_AT_N] = (uint8_t)ride->n;
    for (k = 0; k < values; k++, at += 2) {
        put_word(at, surface[k]);
    }
    for (k = 0; k < numbers; k++, at += 2) {
        put_word(at, path[k]);
    }
}

/* ---- the calls */

static void nothing(void)
{
}

static void call_door(void)
{
    if (door_reply(record, length, reply, sizeof reply) == 0 || reply[LEAN_AT_NUMBER] != LEAN_ACCEPTED) {
        printf("%s is not accepted at the door\n", asked->name);
        exit(1);
    }
}

static void call_compose(void)
{
    if (lean_compose(asked->form, asked->first, asked->second, asked->n, 0, surface, values, path, numbers, high, LEAN_MOST_PLACES, low,
                     LEAN_MOST_PLACES, points, LEAN_MOST_PLACES, words, LEAN_WORDS) != 0 || words[0] != 0) {
        printf("%s is not accepted\n", asked->name);
        exit(1);
    }
}

static void call_tick(void)
{
    if (lean_tick(points, LEAN_MOST_PLACES, 511, ticks, LEAN_TICK_WORDS) != 0 || ticks[0] != 0) {
        printf("the net is not read\n");
        exit(1);
    }
}

static void call_card(void)
{
    if (lean_card(4, surface, 5, LEAN_CARD_LINE, 3.0, 1000.0, numerators, LEAN_CARD_NUMERATORS, words, LEAN_CARD_WORDS) != 0 || words[0] != 0) {
        printf("the part is not accepted\n");
        exit(1);
    }
}

/* the largest patch: n = 3, N = 3, every domain point balanced */
static void call_patch(void)
{
    static const int32_t values_of[10] = {4096, -17, 300, -4096, 5, 2048, -1, 77, -2000, 901};
    static int32_t domain[30];
    static int64_t exact[LEAN_PATCH_MOST_PLACES];
    static int32_t rounded[LEAN_PATCH_MOST_PLACES];
    size_t k;

    for (k = 0; k < 10; k++) {
        domain[3 * k] = (int32_t)(k * 37 % 500);
        domain[3 * k + 1] = (int32_t)(k * 61 % 500);
        domain[3 * k + 2] = 1024 - domain[3 * k] - domain[3 * k + 1];
    }
    if (lean_patch(3, 3, values_of, 10, domain, 30, exact, LEAN_PATCH_MOST_PLACES, rounded, LEAN_PATCH_MOST_PLACES, words, LEAN_PATCH_WORDS) != 0 ||
        words[0] != 0) {
        printf("the patch is not accepted\n");
        exit(1);
    }
}

/* The ride and the door's reply to it, again and again: a trace that is replayed, one that is salvaged, and a day. */
enum { PAIRS = 100 };
static uint8_t trace[PAIRS * (LEAN_MOST_REQUEST + LEAN_REPLY_ROOM)];
static size_t trace_length;

static void lay_trace(void)
{
    const size_t answered = door_reply(record, length, reply, sizeof reply);
    size_t k;

    trace_length = 0;
    for (k = 0; k < PAIRS; k++) {
        memcpy(trace + trace_length, record, length);
        memcpy(trace + trace_length + length, reply, answered);
        trace_length += length + answered;
    }
}

static void call_replay(void)
{
    if (lean_replay(trace, trace_length, words, LEAN_REPLAY_WORDS) != 0 || words[0] != PAIRS || words[1] != PAIRS) {
        printf("%s is not replayed\n", asked->name);
        exit(1);
    }
}

static void call_salvage(void)
{
    static uint8_t line[LEAN_SALVAGE_LINE];

    memset(words, 0, sizeof words);
    if (lean_salvage(trace, trace_length, 1, words, LEAN_SALVAGE_WORDS, line, sizeof line) != 0 || words[2] != 0 || words[3] != trace_length) {
        printf("%s is not kept\n", asked->name);
        exit(1);
    }
}

static void call_sheet(void)
{
    static uint8_t held[LEAN_SHEET_HELD];
    static uint64_t counts[LEAN_SHEET_COUNTS];
    static uint64_t refusals[LEAN_SHEET_REFUSALS];
    static int64_t span[LEAN_SHEET_SPAN];
    const uint64_t before = refusals[0];

    lean_sheet(held, counts, refusals, span, trace, trace_length);
    if (refusals[0] != before + PAIRS) {
        printf("%s is not in the sheet\n", asked->name);
        exit(1);
    }
}

static void call_convert(void)
{
    static uint8_t held[LEAN_CONVERT_HELD];
    static uint64_t converter[LEAN_CONVERT_WORDS];
    static uint8_t out[LEAN_CONVERT_ROOM];

    lean_convert(held, converter, trace, trace_length, out, sizeof out);
    if (converter[2] != trace_length || converter[3] != trace_length || lean_convert_end(held, converter, out, sizeof out) != 0) {
        printf("%s is not converted\n", asked->name);
        exit(1);
    }
}

/* ---- the stack */

static ucontext_t here, there;
static unsigned char stack[STACK];
static void (*called)(void);

static void over(void)
{
    called();
}

static size_t used(void (*call)(void))
{
    size_t k = 0;

    /* once before, so that nothing is bound while it is measured */
    call();
    memset(stack, PAINT, sizeof stack);
    if (getcontext(&there) != 0) {
        exit(2);
    }
    there.uc_stack.ss_sp = stack;
    there.uc_stack.ss_size = sizeof stack;
    there.uc_link = &here;
    called = call;
    makecontext(&there, over, 0);
    if (swapcontext(&here, &there) != 0) {
        exit(2);
    }
    while (k < sizeof stack && stack[k] == PAINT) {
        k++;
    }
    return sizeof stack - k;
}

/* every function, by its name; what is left is the most that it took */
enum { FUNCTIONS = 9 };

static const struct {
    const char *name;
    void (*call)(void);
} functions[FUNCTIONS] = {
    {"door_reply", call_door}, {"lean_compose", call_compose}, {"lean_replay", call_replay},
    {"lean_convert", call_convert}, {"lean_salvage", call_salvage}, {"lean_sheet", call_sheet},
    {"lean_tick", call_tick},  {"lean_card", call_card},       {"lean_patch", call_patch},
};

static int stacks(size_t allowed)
{
    size_t most[FUNCTIONS] = {0};
    int over_it = 0;
    size_t k, f;

    for (k = 0; k < RIDES; k++) {
        lay(&rides[k]);
        lay_trace();
        for (f = 0; f < FUNCTIONS; f++) {
            const size_t without = used(nothing);
            const size_t with = used(functions[f].call) - without;
            most[f] = with > most[f] ? with : most[f];
        }
    }
    printf("stack, in bytes:");
    for (f = 0; f < FUNCTIONS; f++) {
        printf(" %s %zu,", functions[f].name, most[f]);
        over_it |= most[f] == 0 || most[f] > allowed;
    }
    printf(" at most %zu\n", allowed);
    return over_it;
}

static void calls(void)
{
    size_t k;

    for (k = 0; k < RIDES; k++) {
        lay(&rides[k]);
        call_door();
        printf("door_reply, %s\n", rides[k].name);
        call_compose();
        printf("lean_compose, %s\n", rides[k].name);
    }
    lay(&rides[0]);
    call_tick();
    printf("lean_tick, 25 points\n");
    call_card();
    printf("lean_card, a line of degree 4\n");
    call_patch();
    printf("lean_patch, degrees 3 3\n");
}

int main(int count, char **arguments)
{
    if (count == 2 && strcmp(arguments[1], "calls") == 0) {
        calls();
        return 0;
    }
    if (count != 3 || strcmp(arguments[1], "stack") != 0) {
        printf("usage: resources stack BYTES | resources calls\n");
        return 2;
    }
    return stacks(strtoul(arguments[2], NULL, 10));
}
