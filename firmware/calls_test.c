/* Random calls of every C function, each lent block just as large as is said: `calls heap SEED COUNT` takes blocks from the heap, for the
 * sanitizers and valgrind; `calls pages SEED COUNT` lays each against a page that may not be touched, now at its end, now at its
 * beginning. Checks what the headers say of every call: what is returned, what stays, and that the counts and numbers are legal. */
#define _DEFAULT_SOURCE
#include "lean.h"
#include "lean_door.h"

#include <stdio.h>
#include <stdlib.h>
#include <string.h>
#include <sys/mman.h>
#include <unistd.h>

enum { BLOCKS = 8, FILL = 0xa5 };

static uint64_t state;

/* splitmix64 */
static uint64_t drawn(void)
{
    uint64_t z = state += 0x9e3779b97f4a7c15u;
    z = (z ^ (z >> 30)) * 0xbf58476d1ce4e5b9u;
    z = (z ^ (z >> 27)) * 0x94d049bb133111ebu;
    return z ^ (z >> 31);
}

static size_t below(size_t end)
{
    return (size_t)(drawn() % end);
}

/* ---- blocks */

static int pages;
static size_t page;
static unsigned char *room[BLOCKS];
static void *lent[BLOCKS];
static size_t taken;

static void *block(size_t size)
{
    unsigned char *at;
    if (pages) {
        /* between two pages that may not be touched; the end of an array is aligned as its beginning is */
        at = room[taken] + page + (below(2) == 0 ? page - size : 0);
    } else {
        at = (unsigned char *)malloc(size == 0 ? 1 : size);
        if (at == NULL) {
            exit(2);
        }
    }
    memset(at, FILL, size);
    lent[taken++] = at;
    return at;
}

static void give_back(void)
{
    while (taken > 0) {
        taken--;
        if (!pages) {
            free(lent[taken]);
        }
    }
}

static void wrong(const char *what, unsigned long call)
{
    printf("%s, call %lu\n", what, call);
    exit(1);
}

static int filled(const void *from, size_t bytes)
{
    const unsigned char *at = (const unsigned char *)from;
    size_t k;
    for (k = 0; k < bytes; k++) {
        if (at[k] != FILL) {
            return 0;
        }
    }
    return 1;
}

/* ---- a number near a bound or anywhere */

static int32_t number(int32_t least, int32_t most)
{
    switch (below(16)) {
    case 0:
        return least;
    case 1:
        return most;
    case 2:
        return below(64) == 0 ? least - 1 : least;
    case 3:
        return below(64) == 0 ? most + 1 : most;
    default:
        return least + (int32_t)below((size_t)(most - least) + 1);
    }
}

static const uint32_t most_n = 6;

/* the counts that a form and its degrees ask for */
static size_t values_of(uint32_t form, uint32_t first, uint32_t second)
{
    return form == 1 ? first + 1u : form == 2 ? (first + 1u) * (second + 1u) : (first + 1u) * (first + 2u) / 2;
}

static void draw_path(int32_t *path, uint32_t form, size_t count)
{
    size_t k;
    for (k = 0; k < count; k++) {
        path[k] = number(0, 1024);
    }
    if (form == 3) {
        for (k = 0; k + 2 < count; k += 3) {
            path[k + 1] = number(0, 1024 - (path[k] > 1024 ? 1024 : path[k] < 0 ? 0 : path[k]));
            path[k + 2] = 1024 - path[k] - path[k + 1];
        }
    }
}

struct asked {
    uint32_t form, first, second, n;
    size_t values, numbers;
};

static struct asked draw_head(void)
{
    struct asked a;
    a.form = 1 + (uint32_t)below(3);
    a.first = (uint32_t)below(5);
    a.second = a.form == 2 ? (uint32_t)below(5 - a.first) : 0;
    a.n = (uint32_t)below(most_n + 1);
    a.values = values_of(a.form, a.first, a.second);
    a.numbers = (a.form == 3 ? 3 : a.form == 2 ? 2 : 1) * (size_t)(a.n + 1);
    if (below(16) == 0) {
        switch (below(5)) {
        case 0:
            a.form = (uint32_t)below(6);
            break;
        case 1:
            a.first = (uint32_t)below(256);
            break;
        case 2:
            a.second = (uint32_t)below(256);
            break;
        case 3:
            a.n = (uint32_t)below(256);
            break;
        default:
            a.values = below(40);
        }
    }
    return a;
}

/* ---- the door */

static void put_word(uint8_t *at, uint32_t word)
{
    at[0] = (uint8_t)(word & 255);
    at[1] = (uint8_t)(word >> 8 & 255);
}

static unsigned long door_accepted, compose_accepted, replay_same, convert_changed, salvage_kept, tick_accepted, card_accepted, patch_accepted, sheet_accepted;

enum { RECORD = 256 };

/* any bytes, a request as it should be, or one that is cut off */
static size_t draw_record(uint8_t *record)
{
    size_t length;
    size_t k;

    if (below(8) == 0) {
        length = below(130);
        for (k = 0; k < length; k++) {
            record[k] = (uint8_t)drawn();
        }
    } else {
        const struct asked a = draw_head();
        const int aged = below(2) == 0;
        int32_t path[64];
        uint8_t *at = record + (aged ? LEAN_AGED_HEAD : LEAN_HEAD);
        put_word(record + LEAN_AT_KIND, aged ? LEAN_AGED_REQUEST : LEAN_REQUEST);
        record[LEAN_AT_FORM] = (uint8_t)a.form;
        record[LEAN_AT_FIRST] = (uint8_t)a.first;
        record[LEAN_AT_SECOND] = (uint8_t)a.second;
        record[LEAN_AT_N] = (uint8_t)a.n;
        if (aged) {
            put_word(record + LEAN_AT_AGE, (uint32_t)below(below(8) == 0 ? 65536 : 251));
        }
        for (k = 0; k < a.values; k++, at += 2) {
            put_word(at, (uint32_t)number(-4096, 4096));
        }
        draw_path(path, a.form, a.numbers);
        for (k = 0; k < a.numbers; k++, at += 2) {
            put_word(at, (uint32_t)path[k]);
        }
        length = (size_t)(at - record);
        put_word(record + LEAN_AT_LENGTH, (uint32_t)length);
        if (below(32) == 0) {
            length = below(length + 1);
        }
    }
    return length;
}

static void at_the_door(unsigned long call)
{
    uint8_t record[RECORD];
    const size_t length = draw_record(record);
    const size_t space = below(4) == 0 ? below(LEAN_REPLY_ROOM + 8) : LEAN_REPLY_ROOM;
    uint8_t *request;
    uint8_t *reply;
    size_t answered;

    request = (uint8_t *)block(length);
    memcpy(request, record, length);
    reply = (uint8_t *)block(space);
    answered = door_reply(request, length, reply, space);
    if (memcmp(request, record, length) != 0) {
        wrong("the request was written", call);
    }
    if (space < LEAN_REPLY_ROOM) {
        if (answered != 0 || !filled(reply, space)) {
            wrong("written without room", call);
        }
    } else {
        const uint8_t said = reply[LEAN_AT_NUMBER];
        const size_t count = reply[LEAN_AT_COUNT];
        if (answered != LEAN_HEAD + 2 * count || count > LEAN_MOST_POINTS || (said == LEAN_ACCEPTED) != (count > 0)) {
            wrong("a reply of another length", call);
        }
        if (said > LEAN_STALE || (said >= 3 && said <= 5)) {
            wrong("a number that the door never gives", call);
        }
        if (!filled(reply + answered, space - answered)) {
            wrong("written beyond the reply", call);
        }
        door_accepted += said == LEAN_ACCEPTED;
    }
    give_back();
}

/* ---- a recorded trace: up to three requests and the door's replies to them, now and then with a byte changed or cut off */

enum { TRACE = 3 * (RECORD + LEAN_REPLY_ROOM) };

static size_t draw_trace(uint8_t *trace)
{
    size_t length = 0;
    size_t pairs;

    for (pairs = below(4); pairs > 0; pairs--) {
        const size_t asked = draw_record(trace + length);
        length += asked + door_reply(trace + length, asked, trace + length + asked, LEAN_REPLY_ROOM);
    }
    if (length > 0 && below(4) == 0) {
        trace[below(length)] ^= (uint8_t)(1 + below(255));
    }
    return below(8) == 0 ? below(length + 1) : length;
}

static void replayed(unsigned long call)
{
    uint8_t drawn_trace[TRACE];
    const size_t length = draw_trace(drawn_trace);
    const size_t words_length = below(8) == 0 ? below(8) : LEAN_REPLAY_WORDS;
    uint8_t *trace = (uint8_t *)block(length);
    uint64_t *words = (uint64_t *)block(words_length * sizeof(uint64_t));
    uint32_t code;

    memcpy(trace, drawn_trace, length);
    code = lean_replay(trace, length, words, words_length);
    if (code != (words_length < LEAN_REPLAY_WORDS ? 1u : 0u) || memcmp(trace, drawn_trace, length) != 0) {
        wrong("another code of the replay, or the trace was written", call);
    }
    if (code == 0) {
        if (words[0] > 3 || words[1] + words[2] != words[0] || words[3] > words[0] || (words[3] == 0) != (words[2] == 0) || words[4] > length ||
            !filled(words + LEAN_REPLAY_WORDS, (words_length - LEAN_REPLAY_WORDS) * sizeof *words)) {
            wrong("the replay's words", call);
        }
        replay_same += words[1];
    } else if (!filled(words, words_length * sizeof *words)) {
        wrong("written without room", call);
    }
    give_back();
}

/* at most one page of room where that is too little for a call, else the room that it asks for, from the heap */
static void converted(unsigned long call)
{
    uint8_t drawn_trace[TRACE];
    const size_t length = draw_trace(drawn_trace);
    const int fits = below(2) == 0;
    const size_t room_length = fits ? LEAN_CONVERT_ROOM + below(8) : below(1024);
    uint8_t *held = (uint8_t *)block(LEAN_CONVERT_HELD);
    uint64_t *words = (uint64_t *)block(LEAN_CONVERT_WORDS * sizeof(uint64_t));
    uint8_t *part = (uint8_t *)block(length);
    uint8_t *large = (uint8_t *)malloc(LEAN_CONVERT_ROOM + 8);
    uint8_t *out = fits ? large : (uint8_t *)block(room_length);
    size_t put = 0;

    if (large == NULL) {
        exit(2);
    }
    memset(large, FILL, LEAN_CONVERT_ROOM + 8);
    memset(held, 0, LEAN_CONVERT_HELD);
    memset(words, 0, LEAN_CONVERT_WORDS * sizeof *words);
    memcpy(part, drawn_trace, length);
    lean_convert(held, words, part, length, out, room_length);
    put = (size_t)words[3];
    if (memcmp(part, drawn_trace, length) != 0 || words[2] != (fits ? length : 0) || words[4] > 1 || put > room_length ||
        !filled(out + put, room_length - put)) {
        wrong("the converter's words", call);
    }
    put += lean_convert_end(held, words, out + put, room_length - put);
    if (fits && put != length + 2 * words[1]) {
        wrong("another conversion", call);
    }
    convert_changed += words[1];
    free(large);
    give_back();
}

static void salvaged(unsigned long call)
{
    uint8_t drawn_trace[TRACE];
    const size_t length = draw_trace(drawn_trace);
    const size_t words_length = below(8) == 0 ? below(8) : LEAN_SALVAGE_WORDS;
    const size_t line_length = below(8) == 0 ? below(LEAN_SALVAGE_LINE + 8) : LEAN_SALVAGE_LINE;
    uint8_t *window = (uint8_t *)block(length);
    uint64_t *words = (uint64_t *)block(words_length * sizeof(uint64_t));
    uint8_t *line = (uint8_t *)block(line_length);
    const int fits = words_length >= LEAN_SALVAGE_WORDS && line_length >= LEAN_SALVAGE_LINE;
    const uint32_t last = (uint32_t)below(2);
    uint32_t code;

    memcpy(window, drawn_trace, length);
    if (words_length >= 2 && fits) {
        words[0] = below(2) == 0 ? 0 : drawn();
        words[1] = below(2) == 0 ? 0 : drawn();
    }
    code = lean_salvage(window, length, last, words, words_length, line, line_length);
    if (code != (fits ? 0u : 1u) || memcmp(window, drawn_trace, length) != 0) {
        wrong("another code of the salvage, or the window was written", call);
    }
    if (fits) {
        if (words[2] > length || words[3] > length - words[2] || (last != 0 && length > 0 && words[2] + words[3] == 0) || words[4] > LEAN_SALVAGE_LINE ||
            !filled(words + LEAN_SALVAGE_WORDS, (words_length - LEAN_SALVAGE_WORDS) * sizeof *words) ||
            !filled(line + words[4], line_length - (size_t)words[4])) {
            wrong("the salvage's words", call);
        }
        salvage_kept += words[3] > 0;
    } else if (!filled(words, words_length * sizeof *words) || !filled(line, line_length)) {
        wrong("written without room", call);
    }
    give_back();
}

/* ---- on numbers */

static void composed(unsigned long call)
{
    const struct asked a = draw_head();
    const uint16_t age = (uint16_t)below(below(8) == 0 ? 65536 : 251);
    const size_t places = below(4) == 0 ? below(LEAN_MOST_PLACES + 2) : LEAN_MOST_PLACES;
    const size_t words_length = below(8) == 0 ? below(6) : LEAN_WORDS;
    int32_t *surface = (int32_t *)block(a.values * sizeof(int32_t));
    int32_t *path = (int32_t *)block(a.numbers * sizeof(int32_t));
    int64_t *high = (int64_t *)block(places * sizeof(int64_t));
    uint64_t *low = (uint64_t *)block(places * sizeof(uint64_t));
    int32_t *points = (int32_t *)block(places * sizeof(int32_t));
    uint64_t *words = (uint64_t *)block(words_length * sizeof(uint64_t));
    size_t count = 0;
    size_t k;
    uint32_t code;

    for (k = 0; k < a.values; k++) {
        surface[k] = number(-4096, 4096);
    }
    draw_path(path, a.form, a.numbers);
    code = lean_compose(a.form, a.first, a.second, a.n, age, surface, a.values, path, a.numbers, high, places, low, places, points,
                        places, words, words_length);
    if (code != (words_length < LEAN_WORDS ? 1u : 0u)) {
        wrong("another code of the composer", call);
    }
    if (code == 0) {
        count = (size_t)words[2];
        if ((words[0] == 0) != (count > 0) || count > places || !filled(words + LEAN_WORDS, (words_length - LEAN_WORDS) * sizeof *words)) {
            wrong("the composer's words", call);
        }
        compose_accepted += words[0] == 0;
    } else if (!filled(words, words_length * sizeof *words)) {
        wrong("written without room", call);
    }
    if (!filled(high + count, (places - count) * sizeof *high) || !filled(low + count, (places - count) * sizeof *low) ||
        !filled(points + count, (places - count) * sizeof *points)) {
        wrong("written beyond the count", call);
    }
    give_back();
}

static void ticked(unsigned long call)
{
    const size_t length = below(8) == 0 ? below(LEAN_TICK_POINTS + 3) : 1 + below(LEAN_TICK_POINTS);
    const size_t words_length = below(8) == 0 ? below(6) : LEAN_TICK_WORDS;
    int32_t *points = (int32_t *)block(length * sizeof(int32_t));
    int64_t *words = (int64_t *)block(words_length * sizeof(int64_t));
    uint32_t code;
    size_t k;

    for (k = 0; k < length; k++) {
        points[k] = number(-4096, 4096);
    }
    code = lean_tick(points, length, (uint32_t)number(0, LEAN_TICK_END), words, words_length);
    if (code != (words_length < LEAN_TICK_WORDS ? 1u : 0u)) {
        wrong("another code of the reading", call);
    }
    if (code == 0) {
        if (words[2] > 4096 * (int64_t)LEAN_TICK_PARTS || words[2] < -4096 * (int64_t)LEAN_TICK_PARTS ||
            !filled(words + LEAN_TICK_WORDS, (words_length - LEAN_TICK_WORDS) * sizeof *words)) {
            wrong("the reading's words", call);
        }
        tick_accepted += words[0] == 0;
    } else if (!filled(words, words_length * sizeof *words)) {
        wrong("written without room", call);
    }
    give_back();
}

static void carded(unsigned long call)
{
    const uint32_t m = (uint32_t)below(below(16) == 0 ? 7 : 5);
    const size_t length = below(16) == 0 ? below(8) : m + 1u;
    const size_t places = below(8) == 0 ? below(8) : LEAN_CARD_NUMERATORS;
    const size_t words_length = below(8) == 0 ? below(5) : LEAN_CARD_WORDS;
    const uint32_t line = (uint32_t)below(below(16) == 0 ? 3 : 2);
    const double first = below(16) == 0 ? (double)drawn() / 3.0 : number(0, 1024);
    const double second = below(16) == 0 ? -(double)drawn() : number(0, 1024);
    int32_t *surface = (int32_t *)block(length * sizeof(int32_t));
    double *numerators = (double *)block(places * sizeof(double));
    uint64_t *words = (uint64_t *)block(words_length * sizeof(uint64_t));
    const int fits = places >= LEAN_CARD_NUMERATORS && words_length >= LEAN_CARD_WORDS && line <= LEAN_CARD_LINE;
    uint32_t code;
    size_t k;

    for (k = 0; k < length; k++) {
        surface[k] = number(-4096, 4096);
    }
    code = lean_card(m, surface, length, line, first, second, numerators, places, words, words_length);
    if (code != (fits ? 0u : 1u)) {
        wrong("another code of the card", call);
    }
    if (fits) {
        if (words[2] > LEAN_CARD_NUMERATORS || !filled(numerators + LEAN_CARD_NUMERATORS, (places - LEAN_CARD_NUMERATORS) * sizeof *numerators) ||
            !filled(words + LEAN_CARD_WORDS, (words_length - LEAN_CARD_WORDS) * sizeof *words)) {
            wrong("the card's words", call);
        }
        card_accepted += words[0] == 0;
    } else if (!filled(numerators, places * sizeof *numerators) || !filled(words, words_length * sizeof *words)) {
        wrong("written where the call is not as it should be", call);
    }
    give_back();
}

static void patched(unsigned long call)
{
    const uint32_t n = (uint32_t)below(below(16) == 0 ? 6 : LEAN_PATCH_MOST_DEGREE + 1);
    const uint32_t domain = (uint32_t)below(below(16) == 0 ? 6 : LEAN_PATCH_MOST_DEGREE + 1);
    const size_t values = below(16) == 0 ? below(12) : (n + 1u) * (n + 2u) / 2;
    const size_t numbers = 3 * ((domain + 1u) * (domain + 2u) / 2);
    const size_t places = below(4) == 0 ? below(LEAN_PATCH_MOST_PLACES + 2) : LEAN_PATCH_MOST_PLACES;
    const size_t words_length = below(8) == 0 ? below(5) : LEAN_PATCH_WORDS;
    int32_t *surface = (int32_t *)block(values * sizeof(int32_t));
    int32_t *path = (int32_t *)block(numbers * sizeof(int32_t));
    int64_t *exact = (int64_t *)block(places * sizeof(int64_t));
    int32_t *points = (int32_t *)block(places * sizeof(int32_t));
    uint64_t *words = (uint64_t *)block(words_length * sizeof(uint64_t));
    size_t count = 0;
    size_t k;
    uint32_t code;

    for (k = 0; k < values; k++) {
        surface[k] = number(-4096, 4096);
    }
    draw_path(path, 3, numbers);
    code = lean_patch(n, domain, surface, values, path, numbers, exact, places, points, places, words, words_length);
    if (code != (words_length < LEAN_PATCH_WORDS ? 1u : 0u)) {
        wrong("another code of the patch", call);
    }
    if (code == 0) {
        count = (size_t)words[2];
        if ((words[0] == 0) != (count > 0) || count > places ||
            !filled(words + LEAN_PATCH_WORDS, (words_length - LEAN_PATCH_WORDS) * sizeof *words)) {
            wrong("the patch's words", call);
        }
        patch_accepted += words[0] == 0;
    } else if (!filled(words, words_length * sizeof *words)) {
        wrong("written without room", call);
    }
    if (!filled(exact + count, (places - count) * sizeof *exact) || !filled(points + count, (places - count) * sizeof *points)) {
        wrong("written beyond the count", call);
    }
    give_back();
}

/* a pair with one accepted point, over and over, cut anywhere, to a state of zeros or to any state */
static void sheeted(unsigned long call)
{
    static const uint8_t pair[] = {8, 0, 1, 0, 9, 9, 9, 9, 10, 0, 1, 0x80, 0, 0, 1, 0, 7, 0x80};
    const size_t length = below(300);
    const int begun = below(2) == 0;
    uint8_t *held = (uint8_t *)block(LEAN_SHEET_HELD);
    uint64_t *counts = (uint64_t *)block(LEAN_SHEET_COUNTS * sizeof(uint64_t));
    uint64_t *refusals = (uint64_t *)block(LEAN_SHEET_REFUSALS * sizeof(uint64_t));
    int64_t *span = (int64_t *)block(LEAN_SHEET_SPAN * sizeof(int64_t));
    uint8_t *part = (uint8_t *)block(length);
    size_t k;

    if (!begun) {
        memset(held, 0, LEAN_SHEET_HELD);
        memset(counts, 0, LEAN_SHEET_COUNTS * sizeof *counts);
        memset(refusals, 0, LEAN_SHEET_REFUSALS * sizeof *refusals);
        memset(span, 0, LEAN_SHEET_SPAN * sizeof *span);
    } else if (below(2) == 0) {
        counts[0] = below(LEAN_SHEET_HELD + 3);
    }
    for (k = 0; k < length; k++) {
        part[k] = pair[k % sizeof pair];
    }
    lean_sheet(held, counts, refusals, span, part, length);
    for (k = counts[0] < LEAN_SHEET_HELD ? (size_t)counts[0] : LEAN_SHEET_HELD; k < LEAN_SHEET_HELD; k++) {
        if (held[k] != 0) {
            wrong("no zeros behind the pair that is held", call);
        }
    }
    if (counts[2] > 1) {
        wrong("another mark of a point", call);
    }
    if (!begun && (counts[0] != length % sizeof pair || counts[1] != 0 || refusals[0] != length / sizeof pair ||
                   counts[2] != (length < sizeof pair ? 0u : 1u) || span[0] != (length < sizeof pair ? 0 : -32761) || span[1] != span[0])) {
        wrong("another sheet", call);
    }
    sheet_accepted += counts[2] != 0;
    give_back();
}

int main(int count, char **arguments)
{
    unsigned long calls;
    unsigned long k;

    if (count != 4) {
        printf("usage: calls heap|pages SEED COUNT\n");
        return 2;
    }
    pages = strcmp(arguments[1], "pages") == 0;
    state = strtoull(arguments[2], NULL, 10);
    calls = strtoul(arguments[3], NULL, 10);
    page = (size_t)sysconf(_SC_PAGESIZE);
    for (k = 0; pages && k < BLOCKS; k++) {
        void *at = mmap(NULL, 3 * page, PROT_NONE, MAP_PRIVATE | MAP_ANONYMOUS, -1, 0);
        if (at == MAP_FAILED || mprotect((char *)at + page, page, PROT_READ | PROT_WRITE) != 0) {
            return 2;
        }
        room[k] = (unsigned char *)at;
    }
    for (k = 0; k < calls; k++) {
        switch (k % 9) {
        case 0:
            at_the_door(k);
            break;
        case 1:
            composed(k);
            break;
        case 2:
            ticked(k);
            break;
        case 3:
            carded(k);
            break;
        case 4:
            patched(k);
            break;
        case 5:
            replayed(k);
            break;
        case 6:
            salvaged(k);
            break;
        case 7:
            converted(k);
            break;
        default:
            sheeted(k);
        }
    }
    if (calls >= 1000 && (door_accepted == 0 || compose_accepted == 0 || replay_same == 0 || convert_changed == 0 || salvage_kept == 0 || tick_accepted == 0 ||
                          card_accepted == 0 || patch_accepted == 0 || sheet_accepted == 0)) {
        printf("some function never accepted\n");
        return 1;
    }
    printf("%lu calls, seed %s, %s: accepted %lu at the door, %lu composed, %lu replies the same, %lu requests converted, %lu salvaged, %lu read, "
           "%lu on the card, %lu patches, %lu sheets\n",
           calls, arguments[2], arguments[1], door_accepted, compose_accepted, replay_same, convert_changed, salvage_kept, tick_accepted, card_accepted, patch_accepted,
           sheet_accepted);
    return 0;
}
