/* Calls every function of galivodern.h on a case that is put together here, word by word. */
#include <stdint.h>
#include <stdio.h>
#include <string.h>

#include "galivodern.h"

#define NONE 4294967295u
#define VARIABLE 0u
#define PREDICATE 1u
#define COUNT 2u
#define FORMERLY 3u
#define SINCE 4u

/* Strings, values, members, points, nodes, lists: one point A(n: 7), the rule A(n: x), its count, and two that look back. */
static const uint32_t words[] = {
    0, 1, 1, 1, 2, 7,                                /* strings: "A", "n", "request" */
    2, 7, 0, 0, 7, 0, 1, 0, 7, 0, 0, 0,              /* values: 7, {n: 7}, {} */
    1, 0,                                            /* member: n is value 0 */
    100, 0, 0, 0, 0, 2, 1, 2, NONE, NONE, 0, 0,      /* the point, at time 100 */
    23, 0, 0, 0, 0, 0, 0, 0,                         /* node 0: variable 0 */
    7, 0, 0, 0, 2, 0, 1, 0,                          /* node 1: A(n: variable 0) */
    31, 3, 1, 1, 0, 0, 0, 0,                         /* node 2: count for variable 0 where node 1 */
    4, 1, 0, 2, 1, 0, 0, 0,                          /* node 3: formerly within 1 hour node 1 */
    6, 1, 1, 1, 0, 2, 0, 0,                          /* node 4: node 1 since within 1 hour node 1 */
    4, 1, 0, 0, 1,                                   /* argument (path, term), binder, path */
};
static const uint32_t lengths[] = {24, 48, 8, 48, 160, 20, 9};
static const char text[] = "Anrequest";

static int failed, checked;

static void check(int kept, const char *what, int line) {
    checked++;
    if (!kept) {
        failed++;
        printf("tests/c/calls.c:%d: %s\n", line, what);
    }
}

#define CHECK(kept) check(kept, #kept, __LINE__)

static size_t put(uint8_t *file, size_t at, uint32_t word) {
    for (int k = 0; k < 4; k++) {
        file[at + k] = (uint8_t)(word >> (8 * k));
    }
    return at + 4;
}

/* Writes the case; gives its length. */
static size_t write_case(uint8_t *file) {
    uint32_t offset = 64;
    size_t at = put(file, put(file, 0, 1), 1);
    for (size_t k = 0; k < 7; k++) {
        at = put(file, put(file, at, offset), lengths[k]);
        offset += lengths[k];
    }
    for (size_t k = 0; k < sizeof words / sizeof words[0]; k++) {
        at = put(file, at, words[k]);
    }
    memcpy(file + at, text, lengths[6]);
    return at + lengths[6];
}

typedef uint64_t ask(const uint8_t *, size_t, size_t, uint32_t, const uint64_t *, size_t, uint64_t, size_t,
                     uint64_t *, size_t, uint64_t *, size_t);
typedef uint64_t list(const uint8_t *, size_t, size_t, uint32_t, const uint64_t *, size_t, uint64_t, size_t,
                      uint64_t *, size_t, const uint32_t *, size_t, uint64_t *, size_t, uint64_t *, size_t);
typedef uint64_t shows(const uint8_t *, size_t, size_t, uint32_t, const uint64_t *, size_t, uint64_t, size_t,
                       uint64_t *, size_t, uint64_t *, size_t, uint64_t *, size_t);

static const uint64_t unbound[2] = {0, 0}, nine[2] = {1, 9};

static int same(const uint64_t *cells, uint64_t a, uint64_t b, uint64_t c) {
    return cells[0] == a && cells[1] == b && cells[2] == c;
}

static void test_check(const uint8_t *file, size_t length) {
    uint64_t contents[6] = {8, 8, 8, 8, 8, 8};
    CHECK(galivodern_check(file, length, contents, 4) == GALIVODERN_TOO_FEW_CELLS && contents[0] == 8);
    CHECK(galivodern_check(file, length - 1, contents, 6) == GALIVODERN_BAD_CONTENTS && contents[0] == 8);
    CHECK(galivodern_check(file, length, contents, 6) == GALIVODERN_ANSWERED);
    CHECK(contents[GALIVODERN_VARIABLES] == 1 && contents[GALIVODERN_STRINGS] == 3);
    CHECK(contents[GALIVODERN_VALUES] == 3 && contents[GALIVODERN_POINTS] == 1);
    CHECK(contents[GALIVODERN_NODES] == 5 && contents[5] == 8);
}

static void test_window(void) {
    CHECK(galivodern_window(20, 105, 110) == GALIVODERN_LATER && galivodern_difference(105, 110) == -5);
    CHECK(galivodern_window(20, 120, 100) == GALIVODERN_INSIDE && galivodern_difference(120, 100) == 20);
    CHECK(galivodern_window(19, 120, 100) == GALIVODERN_TOO_OLD);
    CHECK(galivodern_window(0, 100, 100) == GALIVODERN_INSIDE && galivodern_difference(100, 100) == 0);
    CHECK(galivodern_window(-1, 100, 100) == GALIVODERN_TOO_OLD);
    CHECK(galivodern_window(-1, 100, 101) == GALIVODERN_LATER);
    CHECK(galivodern_window(INT64_MAX, INT64_MAX, INT64_MIN) == GALIVODERN_INSIDE);
    CHECK(galivodern_window(INT64_MAX - 1, INT64_MAX, INT64_MIN) == GALIVODERN_TOO_OLD);
    CHECK(galivodern_difference(INT64_MAX, INT64_MIN) == INT64_MAX);
    CHECK(galivodern_window(INT64_MAX, INT64_MIN, INT64_MAX) == GALIVODERN_LATER);
    CHECK(galivodern_window(INT64_MIN, INT64_MIN, INT64_MAX) == GALIVODERN_LATER);
    CHECK(galivodern_difference(INT64_MIN, INT64_MAX) == INT64_MIN);
}

static void test_verdict(ask *verdict, const uint8_t *file, size_t length) {
    uint64_t work[5] = {8, 8, 8, 8, 8}, told[5] = {8, 8, 8, 8, 8};
    CHECK(verdict(file, length, 0, PREDICATE, unbound, 2, 9, 2, work, 5, told, 3) == GALIVODERN_TOO_FEW_CELLS);
    CHECK(same(told, 8, 8, 8) && told[3] == 8 && work[0] == 8);
    CHECK(verdict(file, length, 1, PREDICATE, unbound, 2, 9, 2, work, 5, told, 5) == GALIVODERN_NO_SUCH_POINT);
    CHECK(same(told, 0, 0, 0) && told[GALIVODERN_SORT] == 0 && work[0] == 8);
    CHECK(verdict(file, length, 0, VARIABLE, unbound, 2, 9, 2, work, 5, told, 5) == GALIVODERN_NO_SUCH_NODE);
    CHECK(verdict(file, length, 0, SINCE + 1, unbound, 2, 9, 2, work, 5, told, 5) == GALIVODERN_NO_SUCH_NODE);
    CHECK(verdict(file, length, 0, PREDICATE, unbound, 1, 9, 2, work, 5, told, 5) == GALIVODERN_BAD_START);
    CHECK(verdict(file, length, 0, PREDICATE, unbound, 2, 9, 3, work, 5, told, 5) == GALIVODERN_BAD_LIMITS);
    CHECK(verdict(file, length, 0, PREDICATE, unbound, 2, GALIVODERN_MOST_STEPS + 1, 2, work, 5, told, 5) ==
          GALIVODERN_BAD_LIMITS);
    CHECK(same(told, 0, 0, 0) && work[0] == 8);
    CHECK(verdict(file, length, 0, PREDICATE, unbound, 2, 0, 0, work, 5, told, 5) == GALIVODERN_STEPS_EXHAUSTED);
    CHECK(same(told, 0, 0, 0) && work[0] == 8);
    CHECK(verdict(file, length, 0, PREDICATE, unbound, 2, 9, 2, work, 5, told, 5) == GALIVODERN_ANSWERED);
    CHECK(same(told, 1, 1, 0) && told[GALIVODERN_SORT] == GALIVODERN_VERDICT && told[4] == 8);
    CHECK(work[0] == 0 && work[3] == 0 && work[4] == 8);
    CHECK(verdict(file, length, 0, PREDICATE, nine, 2, 9, 2, work, 5, told, 4) == GALIVODERN_ANSWERED);
    CHECK(same(told, 0, 1, 0) && told[GALIVODERN_SORT] == GALIVODERN_VERDICT);
}

static void test_number(ask *number, const uint8_t *file, size_t length) {
    uint64_t work[4] = {8, 8, 8, 8}, told[4] = {8, 8, 8, 8};
    CHECK(number(file, length, 0, COUNT, unbound, 2, 9, 0, work, 4, told, 4) == GALIVODERN_ROOM_EXHAUSTED);
    CHECK(same(told, 0, 2, 0) && told[GALIVODERN_SORT] == 0 && work[0] == 8);
    CHECK(number(file, length, 0, COUNT, unbound, 2, 9, 2, work, 4, told, 4) == GALIVODERN_ANSWERED);
    CHECK(same(told, 1, 2, 1) && told[GALIVODERN_SORT] == GALIVODERN_NUMBER && work[3] == 0);
    CHECK(number(file, length, 0, COUNT, nine, 2, 9, 2, work, 4, told, 4) == GALIVODERN_ANSWERED);
    CHECK(same(told, 1, 2, 1) && told[GALIVODERN_SORT] == GALIVODERN_NUMBER);
    CHECK(number(file, length, 0, COUNT, unbound, 2, 9, 2, work, 4, told, 3) == GALIVODERN_TOO_FEW_CELLS);
}

static void test_rows(list *rows, const uint8_t *file, size_t length) {
    const uint32_t binders[2] = {0, 1};
    uint64_t work[4], output[3] = {8, 8, 8}, told[4] = {8, 8, 8, 8};
    CHECK(rows(file, length, 0, PREDICATE, unbound, 2, 9, 2, work, 4, binders, 1, output, 3, told, 3) ==
          GALIVODERN_TOO_FEW_CELLS);
    CHECK(rows(file, length, 0, PREDICATE, unbound, 2, 9, 2, work, 4, binders, 1, output, 1, told, 4) ==
          GALIVODERN_BAD_OUTPUT);
    CHECK(same(told, 0, 1, 1));
    CHECK(rows(file, length, 0, PREDICATE, unbound, 2, 9, 2, work, 4, binders, 2, output, 3, told, 4) ==
          GALIVODERN_BAD_OUTPUT);
    CHECK(rows(file, length, 0, COUNT, unbound, 2, 9, 2, work, 4, binders, 1, output, 3, told, 4) ==
          GALIVODERN_NO_SUCH_NODE);
    CHECK(same(output, 8, 8, 8));
    CHECK(rows(file, length, 0, PREDICATE, unbound, 2, 9, 2, work, 4, binders, 1, output, 3, told, 4) ==
          GALIVODERN_ANSWERED);
    CHECK(same(told, 1, 1, 1) && told[GALIVODERN_SORT] == 0 && same(output, 1, 7, 8));
    CHECK(rows(file, length, 0, PREDICATE, nine, 2, 9, 2, work, 4, binders, 1, output, 3, told, 4) ==
          GALIVODERN_ANSWERED);
    CHECK(same(told, 0, 1, 0) && same(output, 1, 7, 8));
}

static void test_carried(shows *carried, const uint8_t *file, size_t length) {
    uint64_t work[4] = {8, 8, 8, 8}, points[3] = {8, 8, 8}, told[4] = {8, 8, 8, 8};
    CHECK(carried(file, length, 0, FORMERLY, unbound, 2, 9, 2, work, 4, points, 3, told, 3) == GALIVODERN_TOO_FEW_CELLS);
    CHECK(told[0] == 8 && work[0] == 8);
    CHECK(carried(file, length, 0, PREDICATE, unbound, 2, 9, 2, work, 4, points, 3, told, 4) == GALIVODERN_NO_SUCH_NODE);
    CHECK(same(told, 0, 0, 0) && told[GALIVODERN_FILLED] == 0 && work[0] == 8);
    CHECK(carried(file, length, 0, FORMERLY, unbound, 2, 0, 2, work, 4, points, 0, told, 4) ==
          GALIVODERN_STEPS_EXHAUSTED);
    CHECK(same(told, 0, 0, 0) && work[0] == 0);
    CHECK(carried(file, length, 0, SINCE, unbound, 2, 9, 2, work, 4, points, 0, told, 4) == GALIVODERN_LIST_TOO_SHORT);
    CHECK(same(told, 0, 0, 0) && told[GALIVODERN_FILLED] == 0 && same(points, 8, 8, 8));
    CHECK(carried(file, length, 0, FORMERLY, unbound, 2, 1, 2, work, 4, points, 3, told, 4) == GALIVODERN_ANSWERED);
    CHECK(same(told, 1, 0, 0) && told[GALIVODERN_FILLED] == 1 && same(points, 0, 8, 8));
    CHECK(carried(file, length, 0, SINCE, nine, 2, 1, 2, work, 4, points, 3, told, 4) == GALIVODERN_ANSWERED);
    CHECK(same(told, 0, 0, 0) && told[GALIVODERN_FILLED] == 0 && same(points, 0, 8, 8));
}

static void put_words(uint8_t *file, size_t at, const uint32_t *from, size_t count) {
    for (size_t k = 0; k < count; k++) {
        at = put(file, at, from[k]);
    }
}

/* The case with its strings in another order and one of them twice: written, it is the case again. */
static void test_write(const uint8_t *file, size_t length) {
    static const uint32_t strings[] = {1, 7, 0, 1, 8, 1, 0, 1}; /* "request", "n", "A", "n" over nrequestA */
    static uint8_t unsorted[512], room[512], output[512];
    uint8_t marks[5] = {0, 0, 0, 0, 1};
    uint64_t written[2] = {8, 8};
    const size_t longer = length + 8, values = 64 + 32;
    memcpy(unsorted + 8 + 64, file + 64, length - 64);
    put(unsorted, put(unsorted, 0, 1), 1);
    for (uint32_t k = 0, offset = 64; k < 7; k++) {
        put(unsorted, put(unsorted, 8 + 8 * k, offset), lengths[k] + (k == 0 ? 8 : 0));
        offset += lengths[k] + (k == 0 ? 8 : 0);
    }
    put_words(unsorted, 64, strings, 8);
    put(unsorted, values + 48, 3);          /* the member's name: the second "n" */
    put(unsorted, values + 56 + 16, 2);     /* the point's action and kind */
    put(unsorted, values + 56 + 20, 0);
    put(unsorted, values + 104 + 44, 2);    /* the Predicate's */
    put(unsorted, values + 104 + 48, 0);
    put(unsorted, values + 264 + 16, 1);    /* the path: the first "n" */
    memcpy(unsorted + longer - 9, "nrequestA", 9);
    memset(room, 8, sizeof room);
    memset(output, 8, sizeof output);

    CHECK(galivodern_write(unsorted, longer, marks, 5, room, 512, output, 512, written, 0) == GALIVODERN_TOO_FEW_CELLS);
    CHECK(written[0] == 8 && room[0] == 8 && output[0] == 8);
    CHECK(galivodern_write(unsorted, 63, marks, 5, room, 512, output, 512, written, 2) == GALIVODERN_BAD_CONTENTS);
    CHECK(galivodern_write(unsorted, longer, marks, 4, room, 512, output, 512, written, 2) == GALIVODERN_BAD_CONTENTS);
    CHECK(written[0] == 0 && written[1] == 8);
    CHECK(galivodern_write(unsorted, longer, marks, 5, room, length - 1, output, 512, written, 1) == GALIVODERN_BAD_LIMITS);
    CHECK(room[0] == 8 && output[0] == 8);
    marks[4] = 0;
    CHECK(galivodern_write(unsorted, longer, marks, 5, room, 512, output, 512, written, 1) == GALIVODERN_BAD_NODES);
    CHECK(room[0] == 1 && room[length] == 8 && output[0] == 8);
    marks[4] = 255;
    memset(room, 8, sizeof room);
    CHECK(galivodern_write(unsorted, longer, marks, 5, room, length, output, length - 1, written, 1) ==
          GALIVODERN_OUTPUT_TOO_SHORT);
    CHECK(written[0] == 0 && memcmp(room, file, length) == 0 && output[0] == 8);
    CHECK(galivodern_write(unsorted, longer, marks, 5, room, length, output, length, written, 1) == GALIVODERN_ANSWERED);
    CHECK(written[0] == length && memcmp(output, file, length) == 0 && output[length] == 8);
    CHECK(galivodern_write(file, length, marks, 5, room, 512, output, 512, written, 2) == GALIVODERN_ANSWERED);
    CHECK(written[0] == length && written[1] == 8 && memcmp(output, file, length) == 0);
    put(unsorted, 16 + 64, 10); /* the third string leaves text */
    CHECK(galivodern_write(unsorted, longer, marks, 5, room, 512, output, 512, written, 1) == GALIVODERN_BAD_STRINGS);
    put(unsorted, 4, 17);
    CHECK(galivodern_write(unsorted, longer, marks, 5, room, 512, output, 512, written, 1) == GALIVODERN_TOO_LARGE);
}

#define LINE(time, logged)                                                                                             \
    "{\"time\":" time ",\"namespace\":[\"N\"],\"action\":\"A\",\"kind\":\"request\",\"logged\":" logged                       \
    ",\"context\":{},\"entities\":[[\"T\",\"i\",{}]]}"

/* What an import refuses, and the places that it tells. */
static void faulty(const char *text, uint64_t refusal, uint64_t at, uint64_t first) {
    uint64_t work[200], imported[5] = {8, 8, 8, 8, 8};
    uint8_t trace[3] = {8, 8, 8}, marks[3] = {8, 8, 8};
    const size_t length = strlen(text), cells = (length + 3) / 4;
    memset(work, 255, sizeof work);
    CHECK(galivodern_import((const uint8_t *)text, length, work, cells, trace, 3, marks, 3, imported, 5) == refusal);
    CHECK(imported[GALIVODERN_TRACE_BYTES] == 0 && imported[GALIVODERN_TRACE_MARKS] == 0);
    CHECK(imported[GALIVODERN_AT] == at && imported[GALIVODERN_FIRST] == first && imported[4] == 8);
    CHECK(trace[0] == 8 && marks[0] == 8 && (cells == 0 || (work[0] == 0 && work[cells - 1] == 0)) && work[cells] == UINT64_MAX);
}

static void test_import(void) {
    static const char text[] = LINE("-5", "{\"n\":7,\"b\":[true]}") "\n" LINE("6", "{}") "\r\n";
    static const char lines[] = LINE("-5", "{\"b\":[true],\"n\":7}") "\n" LINE("6", "{}") "\n";
    static uint8_t trace[2048], marks[16], room[2048], file[2048], output[512];
    uint64_t work[200], imported[4] = {8, 8, 8, 8}, written[2] = {8, 8};
    const uint8_t *log = (const uint8_t *)text;
    const size_t length = sizeof text - 1, cells = (length + 3) / 4, expected = sizeof lines - 1;
    memset(work, 255, sizeof work);
    memset(trace, 8, sizeof trace);
    memset(marks, 8, sizeof marks);
    memset(output, 8, sizeof output);

    CHECK(galivodern_import(log, length, work, cells, trace, 2048, marks, 16, imported, 3) == GALIVODERN_TOO_FEW_CELLS);
    CHECK(imported[0] == 8 && work[0] == UINT64_MAX);
    CHECK(galivodern_import(log, length, work, cells - 1, trace, 2048, marks, 16, imported, 4) == GALIVODERN_BAD_LIMITS);
    CHECK(same(imported, 0, 0, 0) && imported[3] == 0 && work[0] == UINT64_MAX && trace[0] == 8);

    /* 12 strings of 24 bytes, 9 values, 3 members, 2 points, 8 list words */
    const size_t bytes = 64 + 12 * 8 + 9 * 16 + 3 * 8 + 2 * 48 + 8 * 4 + 24;
    CHECK(galivodern_import(log, length, work, cells, trace, bytes - 1, marks, 8, imported, 4) ==
          GALIVODERN_OUTPUT_TOO_SHORT);
    CHECK(galivodern_import(log, length, work, cells, trace, bytes, marks, 7, imported, 4) ==
          GALIVODERN_OUTPUT_TOO_SHORT);
    CHECK(same(imported, 0, 0, 0) && trace[0] == 8 && marks[0] == 8 && work[0] == 0 && work[cells - 1] == 0);
    CHECK(galivodern_import(log, length, work, cells, trace, bytes, marks, 8, imported, 4) == GALIVODERN_ANSWERED);
    CHECK(imported[GALIVODERN_TRACE_BYTES] == bytes && imported[GALIVODERN_TRACE_MARKS] == 8);
    CHECK(imported[GALIVODERN_AT] == 0 && imported[GALIVODERN_FIRST] == 0);
    CHECK(trace[0] == 1 && trace[bytes] == 8 && marks[0] == 1 && marks[3] == 0 && marks[8] == 8 && work[cells] == UINT64_MAX);

    /* the case of it, and its export: members in the order of their names */
    CHECK(galivodern_write(trace, bytes, marks, 8, room, 2048, file, 2048, written, 1) == GALIVODERN_ANSWERED);
    const size_t size = written[0];
    CHECK(galivodern_export(file, size, output, 512, written, 0) == GALIVODERN_TOO_FEW_CELLS);
    CHECK(written[0] == size);
    CHECK(galivodern_export(file, size - 1, output, 512, written, 2) == GALIVODERN_BAD_CONTENTS);
    CHECK(galivodern_export(file, size, output, expected - 1, written, 2) == GALIVODERN_OUTPUT_TOO_SHORT);
    CHECK(written[0] == 0 && written[1] == 8 && output[0] == 8);
    CHECK(galivodern_export(file, size, output, expected, written, 2) == GALIVODERN_ANSWERED);
    CHECK(written[0] == expected && written[1] == 8 && memcmp(output, lines, expected) == 0 && output[expected] == 8);

    /* an empty log is no fault, and its case has no points */
    CHECK(galivodern_import(log, 0, work, 0, trace, 64, marks, 0, imported, 4) == GALIVODERN_ANSWERED);
    CHECK(imported[GALIVODERN_TRACE_BYTES] == 64 && imported[GALIVODERN_TRACE_MARKS] == 0);
    CHECK(galivodern_export(trace, 64, output, 0, written, 1) == GALIVODERN_ANSWERED && written[0] == 0);

    faulty("\n", GALIVODERN_NOT_JSON, 0, 0);
    faulty(LINE("1", "{}") "\n" LINE("01", "{}"), GALIVODERN_NOT_JSON, strlen(LINE("1", "{}")) + 10, strlen(LINE("1", "{}")) + 10);
    faulty("{\"kind\":\"\\ud800\"}", GALIVODERN_NOT_JSON, 9, 9);
    faulty("{\"time\":1,\"\\u0074ime\":1}", GALIVODERN_REPEATED_NAME, 10, 1);
    faulty("{\"time\":9223372036854775808}", GALIVODERN_BAD_NUMBER, 8, 8);
    faulty("{\"tim\":1}", GALIVODERN_BAD_FIELD, 1, 1);
    faulty("{}", GALIVODERN_BAD_FIELD, 1, 1);
    faulty("{\"principal\":[[[[[[[[[[[[[[[[[[[[[[[[[[[[[[[[0", GALIVODERN_TOO_DEEP, 45, 45);
}

/* A file that no import makes: an object with __extn alone. */
static void test_ambiguous(void) {
    static uint8_t file[512], output[512];
    uint64_t written[1] = {8}, contents[5];
    static const uint32_t sizes[7] = {16, 48, 8, 48, 0, 0, 7}; /* "A", "__extn" */
    size_t at = put(file, put(file, 0, 1), 0);
    for (uint32_t k = 0, offset = 64; k < 7; k++) {
        at = put(file, put(file, at, offset), sizes[k]);
        offset += sizes[k];
    }
    static const uint32_t rest[] = {0, 1, 1, 6, 0, 0, 0, 0, 7, 0, 1, 0, 7, 1, 0, 0, 1, 0, 1, 0, 0, 0, 0, 0, 2, 1, ~0u, ~0u, 0, 0};
    put_words(file, 64, rest, sizeof rest / 4);
    memcpy(file + 64 + sizeof rest, "A__extn", 7);
    const size_t length = 64 + sizeof rest + 7;
    memset(output, 8, sizeof output);
    CHECK(galivodern_check(file, length, contents, 5) == GALIVODERN_ANSWERED);
    CHECK(galivodern_export(file, length, output, 0, written, 1) == GALIVODERN_AMBIGUOUS_OBJECT);
    CHECK(written[0] == 0 && output[0] == 8);
    put(file, 64 + 16 + 32 + 8, 0); /* the point's context is the other one: an empty object, and nothing reaches the first */
    put(file, 64 + 16 + 48 + 8 + 28, 2);
    CHECK(galivodern_export(file, length, output, 512, written, 1) == GALIVODERN_ANSWERED);
    CHECK(memcmp(output, "{\"time\":1,\"namespace\":[],\"action\":\"A\"", 37) == 0 && output[written[0] - 1] == '\n');
}

/* Every number that a call returns has a text of its own, and no other number has one of these. */
static void test_refusal_text(void) {
    const char *known[23];
    size_t count = 0;
    const char *unknown = galivodern_refusal_text(UINT64_MAX);
    for (uint64_t returned = 0; returned <= GALIVODERN_LIST_TOO_SHORT; returned++) {
        known[count++] = galivodern_refusal_text(returned);
    }
    for (uint64_t returned = GALIVODERN_NOT_JSON; returned <= GALIVODERN_AMBIGUOUS_OBJECT; returned++) {
        known[count++] = galivodern_refusal_text(returned);
    }
    known[count++] = galivodern_refusal_text(GALIVODERN_TOO_FEW_CELLS);
    for (size_t k = 0; k < count; k++) {
        CHECK(strcmp(known[k], unknown) != 0);
        for (size_t other = 0; other < k; other++) {
            CHECK(strcmp(known[k], known[other]) != 0);
        }
    }
    CHECK(strcmp(galivodern_refusal_text(GALIVODERN_NO_SUCH_POINT), "the case has no such point") == 0);
    CHECK(strstr(galivodern_refusal_text(GALIVODERN_BAD_LIMITS), "the workspace is too small") != NULL);
    CHECK(strstr(galivodern_refusal_text(GALIVODERN_BAD_OUTPUT), "the output is too short") != NULL);
    CHECK(strcmp(galivodern_refusal_text(GALIVODERN_TOO_FEW_CELLS + 1), unknown) == 0);
}

int main(void) {
    static uint8_t file[512];
    size_t length = write_case(file);
    uint64_t told[4], work[4];
    test_refusal_text();
    test_check(file, length);
    test_verdict(galivodern_ask, file, length);
    test_verdict(galivodern_checked_ask, file, length);
    test_number(galivodern_ask, file, length);
    test_number(galivodern_checked_ask, file, length);
    test_rows(galivodern_rows, file, length);
    test_rows(galivodern_checked_rows, file, length);
    test_carried(galivodern_carried, file, length);
    test_carried(galivodern_checked_carried, file, length);
    test_write(file, length);
    test_import();
    test_ambiguous();
    /* A damaged case is refused by each call that has not seen it checked. */
    file[64 + 24 + 48] = 7;
    CHECK(galivodern_ask(file, length, 0, PREDICATE, unbound, 2, 9, 2, work, 4, told, 4) == GALIVODERN_BAD_VALUES);
    CHECK(same(told, 0, 0, 0));
    test_window();
    printf("%d checks, %d failed\n", checked, failed);
    return failed != 0;
}
