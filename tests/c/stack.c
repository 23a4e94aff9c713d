/* How much stack each call uses: the deepest cases known, each on a thread whose stack ends, at a page that may not
 * be touched, exactly as many bytes below the call as galivodern.h states. The stack is painted beforehand, so that
 * what was touched can be told, too: with an argument it is printed for each case. */
#define _GNU_SOURCE
#include <pthread.h>
#include <stdint.h>
#include <stdio.h>
#include <stdlib.h>
#include <string.h>
#include <sys/mman.h>

#include "galivodern.h"

#define NONE 4294967295u
#define PAGE 4096u
#define PAINT 0xa7
/* what a thread takes of its stack before it comes to its function, at most */
#define BEGINNING (64u * 1024u)
#define POINTS 520u

/* what galivodern.h states of each call; all of it is below GALIVODERN_STACK_BYTES */
#define CHECK_BYTES (200u * 1024u)
#define QUESTION_BYTES (384u * 1024u)
#define WRITE_BYTES (568u * 1024u)
#define IMPORT_BYTES (48u * 1024u)
#define EXPORT_BYTES (720u * 1024u)

#define MOST_HEIGHT 64u

enum { A, REQUEST, X }; /* strings */

/* ---- a case, put together table by table */

static uint32_t values[16384][4], members[65536][2], points[16384][12], nodes[1024][8], lists[4096];
static uint32_t value_count, member_count, point_count, node_count, list_count, variables;
static uint8_t file[GALIVODERN_MOST_BYTES], room[GALIVODERN_MOST_BYTES], output[GALIVODERN_MOST_BYTES];
static uint8_t unsorted[GALIVODERN_MOST_BYTES], marks[GALIVODERN_MOST_BYTES];
static uint64_t work[2 * 2 * GALIVODERN_MOST_ROOM], list[16384], rows[2 * GALIVODERN_MOST_ROOM];
static size_t file_len, text_len;
static uint32_t asked;

static size_t put(uint8_t *to, size_t at, uint32_t word) {
    for (int k = 0; k < 4; k++) {
        to[at + k] = (uint8_t)(word >> (8 * k));
    }
    return at + 4;
}

static uint32_t value(uint32_t kind, uint32_t a, uint32_t b) {
    const uint32_t words[4] = {kind, a, b, 0};
    memcpy(values[value_count], words, sizeof words);
    return value_count++;
}

static uint32_t member(uint32_t name, uint32_t held) {
    members[member_count][0] = name;
    members[member_count][1] = held;
    return member_count++;
}

static uint32_t node(uint32_t kind, uint32_t a, uint32_t b, uint32_t c, uint32_t d, uint32_t e, uint32_t f) {
    const uint32_t words[8] = {kind, a, b, c, d, e, f, 0};
    memcpy(nodes[node_count], words, sizeof words);
    return node_count++;
}

static void point(uint32_t logged, uint32_t context) {
    const uint32_t words[12] = {point_count, 0, 0, 0, A, REQUEST, logged, context, NONE, NONE, 0, 0};
    memcpy(points[point_count++], words, sizeof words);
}

static void encode(void) {
    static const char text[] = "Arequestx";
    static const uint32_t strings[6] = {0, 1, 1, 7, 8, 1};
    const uint32_t sizes[7] = {sizeof strings, 16 * value_count, 8 * member_count, 48 * point_count,
                               32 * node_count, 4 * list_count,  sizeof text - 1};
    const uint32_t *const tables[6] = {strings, values[0], members[0], points[0], nodes[0], lists};
    uint32_t offset = 64;
    size_t at = put(file, put(file, 0, 1), variables);
    for (int k = 0; k < 7; k++) {
        at = put(file, put(file, at, offset), sizes[k]);
        offset += sizes[k];
    }
    for (int k = 0; k < 6; k++) {
        for (uint32_t word = 0; word < sizes[k] / 4; word++) {
            at = put(file, at, tables[k][word]);
        }
    }
    memcpy(file + at, text, sizeof text - 1);
    file_len = at + sizeof text - 1;
}

/* Arrays of two items around an Int, as deep as a value may be in an object: two of them, equal, with no part in
 * common. Points log one or the other. */
static void begin(void) {
    uint32_t tops[2], logged[2];
    value_count = member_count = point_count = node_count = list_count = 0;
    variables = 2;
    for (int k = 0; k < 2; k++) {
        uint32_t at = value(2, 7, 0);
        for (int depth = 0; depth < 30; depth++) {
            const uint32_t first = member(NONE, at);
            member(NONE, at);
            at = value(6, first, 2);
        }
        tops[k] = at;
    }
    for (int k = 0; k < 2; k++) {
        logged[k] = value(7, member(X, tops[k]), 1);
    }
    for (uint32_t k = 0; k < POINTS; k++) {
        point(logged[k % 2], logged[0]);
    }
    lists[list_count++] = X;
}

/* A(x: variable 0) at any point up to here, without variable 0: more than 512 rows, which are all equal. Height 4. */
static uint32_t many_rows(void) {
    const uint32_t argument = list_count;
    lists[list_count++] = 0;
    lists[list_count++] = 1;
    lists[list_count++] = node(23, 0, 0, 0, 0, 0, 0);
    const uint32_t found = node(7, 0, 0, A, REQUEST, argument, 1);
    const uint32_t formerly = node(4, 9, 0, 3, found, 0, 0);
    return node(9, 1, formerly, 0, 0, 0, 0);
}

/* ---- nodes around a node; each adds to the height, and each asks what it is around */

typedef uint32_t wrapping(uint32_t inner, uint32_t always, uint32_t *height);

static uint32_t in_since(uint32_t inner, uint32_t always, uint32_t *height) {
    *height += 1;
    return node(6, always, inner, 0, 0, 0, 0);
}

/* the left side is asked at this point for the anchor of the point before */
static uint32_t in_left_of_since(uint32_t inner, uint32_t always, uint32_t *height) {
    *height += 2;
    return node(6, node(9, 1, inner, 0, 0, 0, 0), always, 1, 0, 0, 0);
}

static uint32_t in_and(uint32_t inner, uint32_t always, uint32_t *height) {
    *height += 1;
    return node(1, always, inner, 0, 0, 0, 0);
}

static uint32_t in_or(uint32_t inner, uint32_t always, uint32_t *height) {
    *height += 1;
    return node(2, always, inner, 0, 0, 0, 0);
}

static uint32_t in_exists(uint32_t inner, uint32_t always, uint32_t *height) {
    (void)always;
    *height += 1;
    return node(9, 1, inner, 0, 0, 0, 0);
}

static uint32_t in_formerly(uint32_t inner, uint32_t always, uint32_t *height) {
    (void)always;
    *height += 1;
    return node(4, 0, 0, 0, inner, 0, 0);
}

static uint32_t in_not_exists(uint32_t inner, uint32_t always, uint32_t *height) {
    (void)always;
    *height += 2;
    return node(3, node(9, 1, inner, 0, 0, 0, 0), 0, 0, 0, 0, 0);
}

/* the count of it is at least 7 */
static uint32_t in_count(uint32_t inner, uint32_t always, uint32_t *height) {
    (void)always;
    const uint32_t count = node(31, 0, 0, inner, 0, 0, 0), term = node(25, count, 0, 0, 0, 0, 0);
    *height += 3;
    return node(8, 2, term, node(20, 0, 0, 0, 0, 0, 0), 0, 0, 0);
}

static uint32_t in_binding(uint32_t inner, uint32_t always, uint32_t *height) {
    (void)always;
    const uint32_t count = node(31, 0, 0, inner, 0, 0, 0), term = node(25, count, 0, 0, 0, 0, 0);
    *height += 3;
    return node(8, 4, node(23, 1, 0, 0, 0, 0, 0), term, 0, 0, 0);
}

/* ---- a call on a thread of its own */

static uint8_t *stack, *from;
static size_t stated, most;
static void (*call)(void);
static int failed, told, calls;

static void *on_thread(void *unused) {
    uint8_t here;
    (void)unused;
    /* no more than what is stated is left below */
    const size_t left = (size_t)(&here - stack) - PAGE;
    volatile uint8_t *spare = __builtin_alloca(left - stated);
    spare[0] = PAINT;
    from = (uint8_t *)spare;
    call();
    return NULL;
}

static void run(const char *what, void (*made)(void), size_t bytes) {
    pthread_attr_t attributes;
    pthread_t thread;
    const size_t size = PAGE + bytes + BEGINNING;
    stated = bytes;
    calls++;
    stack = mmap(NULL, size, PROT_READ | PROT_WRITE, MAP_PRIVATE | MAP_ANONYMOUS, -1, 0);
    if (stack == MAP_FAILED || mprotect(stack, PAGE, PROT_NONE) != 0) {
        printf("tests/c/stack.c: no memory\n");
        exit(1);
    }
    memset(stack + PAGE, PAINT, size - PAGE);
    call = made;
    pthread_attr_init(&attributes);
    if (pthread_attr_setstack(&attributes, stack, size) != 0 || pthread_create(&thread, &attributes, on_thread, NULL) != 0) {
        printf("tests/c/stack.c: no thread\n");
        exit(1);
    }
    pthread_join(thread, NULL);
    const uint8_t *lowest = stack + PAGE;
    while (*lowest == PAINT) {
        lowest++;
    }
    const size_t used = (size_t)(from - lowest);
    most = used > most ? used : most;
    if (told) {
        printf("%7zu of %7zu bytes: %s\n", used, bytes, what);
    }
    munmap(stack, size);
}

static void expect(int kept, const char *what) {
    if (!kept) {
        failed++;
        printf("tests/c/stack.c: %s\n", what);
    }
}

/* ---- the calls */

static uint64_t refusal;
static uint64_t cells[5];
static const uint64_t unbound[4] = {0, 0, 0, 0};
static const uint32_t binders[1] = {0};

static void checks(void) {
    refusal = galivodern_check(file, file_len, cells, 5);
}

static void asks(void) {
    refusal = galivodern_ask(file, file_len, POINTS - 1, asked, unbound, 4, GALIVODERN_MOST_STEPS, GALIVODERN_MOST_ROOM,
                             work, sizeof work / 8, cells, 4);
}

static void lists_rows(void) {
    refusal = galivodern_rows(file, file_len, POINTS - 1, asked, unbound, 4, GALIVODERN_MOST_STEPS, GALIVODERN_MOST_ROOM,
                              work, sizeof work / 8, binders, 1, rows, sizeof rows / 8, cells, 4);
}

static void shows(void) {
    refusal = galivodern_carried(file, file_len, POINTS - 1, asked, unbound, 4, GALIVODERN_MOST_STEPS,
                                 GALIVODERN_MOST_ROOM, work, sizeof work / 8, list, 16384, cells, 4);
}

static size_t unsorted_len, marks_len;

static void writes(void) {
    refusal = galivodern_write(unsorted, unsorted_len, marks, marks_len, room, sizeof room, output, sizeof output, cells, 1);
}

static void imports(void) {
    refusal = galivodern_import(file, text_len, work, sizeof work / 8, unsorted, sizeof unsorted, marks, sizeof marks,
                                cells, 4);
}

static void exports(void) {
    refusal = galivodern_export(file, file_len, output, sizeof output, cells, 1);
}

static void questions(const char *what, wrapping *wrap) {
    uint32_t height = 4, unused = 0;
    char line[128];
    begin();
    const uint32_t always = node(7, 0, 0, A, REQUEST, 0, 0);
    uint32_t inner = many_rows();
    while (height + 3 <= MOST_HEIGHT - 2) {
        inner = wrap(inner, always, &height);
    }
    while (height < MOST_HEIGHT - 2) {
        inner = in_since(inner, always, &height);
    }
    const uint32_t seen = in_formerly(in_exists(inner, always, &height), always, &height);
    const uint32_t listed = in_since(in_since(inner, always, &unused), always, &unused);
    encode();
    asked = seen;
    snprintf(line, sizeof line, "check, %s", what);
    run(line, checks, CHECK_BYTES);
    expect(refusal == 0, line);
    snprintf(line, sizeof line, "ask, %s", what);
    run(line, asks, QUESTION_BYTES);
    expect(refusal == 0, line);
    snprintf(line, sizeof line, "carried, %s", what);
    run(line, shows, QUESTION_BYTES);
    expect(refusal == 0, line);
    asked = listed;
    snprintf(line, sizeof line, "rows, %s", what);
    run(line, lists_rows, QUESTION_BYTES);
    expect(refusal == 0, line);
}

/* An unsorted case of so many strings of four bytes, in an order that is none. */
static void strings_of(uint32_t count) {
    size_t at = put(unsorted, put(unsorted, 0, 1), 0);
    const uint32_t sizes[7] = {8 * count, 0, 0, 0, 0, 0, 4 * count};
    for (uint32_t k = 0, offset = 64; k < 7; k++) {
        at = put(unsorted, put(unsorted, at, offset), sizes[k]);
        offset += sizes[k];
    }
    for (uint32_t k = 0; k < count; k++) {
        at = put(unsorted, put(unsorted, at, 4 * k), 4);
    }
    for (uint32_t k = 0; k < count; k++) {
        const uint32_t mixed = k * 7919 % count;
        for (int digit = 0; digit < 4; digit++) {
            unsorted[at++] = (uint8_t)('a' + (mixed >> (4 * digit)) % 16);
        }
    }
    unsorted_len = at;
    marks_len = 0;
}

static void test_write(void) {
    static const uint32_t counts[] = {3, 300, 600, 16384, 20000};
    for (size_t k = 0; k < sizeof counts / sizeof counts[0]; k++) {
        char line[64];
        snprintf(line, sizeof line, "write, %u strings", (unsigned)counts[k]);
        strings_of(counts[k]);
        run(line, writes, WRITE_BYTES);
        expect(refusal == (counts[k] > 16384 ? 2u : 0u), line);
    }
    memcpy(unsorted, file, file_len);
    unsorted_len = file_len;
    marks_len = list_count;
    memset(marks, 0, marks_len);
    marks[0] = 1;
    run("write, a case of deep values and high nodes", writes, WRITE_BYTES);
    expect(refusal == 0, "write, a case of deep values and high nodes");
}

/* A log of lines with values as deep as they may be: arrays, objects, or both by turns; and with entities. */
static void test_import(int arrays, int objects) {
    char *at = (char *)file;
    for (int line = 0; line < 40; line++) {
        at += sprintf(at, "{\"time\":1,\"namespace\":[\"N\"],\"action\":\"A\",\"kind\":\"request\",\"logged\":{\"b\":");
        for (int depth = 0; depth < 29; depth++) {
            at += sprintf(at, depth % 2 ? arrays ? "[" : "{\"d\":" : objects ? "{\"d\":" : "[");
        }
        for (int name = 39; name >= 0; name--) {
            at += sprintf(at, "%s\"n%02d\":{\"__entity\":{\"type\":\"T\",\"id\":\"i\"}}%s", name == 39 ? "{" : "", name,
                          name ? "," : "}");
        }
        for (int depth = 28; depth >= 0; depth--) {
            *at++ = (depth % 2 ? arrays : !objects) ? ']' : '}';
        }
        at += sprintf(at, ",\"a\":{\"__extn\":{\"fn\":\"decimal\",\"arg\":\"1.5\"}}},\"context\":{");
        for (int name = 99; name >= 0; name--) {
            at += sprintf(at, "\"n%02d\":-9223372036854775808%s", name, name ? "," : "");
        }
        at += sprintf(at, "},\"entities\":[");
        for (int id = 99; id >= 0; id--) {
            at += sprintf(at, "[\"T\",\"i%02d\",{}]%s", id, id ? "," : "");
        }
        at += sprintf(at, "]}\n");
    }
    text_len = (size_t)(at - (char *)file);
    run("import, lines of deep values", imports, IMPORT_BYTES);
    expect(refusal == 0, "import, lines of deep values");
    unsorted_len = cells[GALIVODERN_TRACE_BYTES];
    marks_len = cells[GALIVODERN_TRACE_MARKS];
    run("write, what was imported", writes, WRITE_BYTES);
    expect(refusal == 0, "write, what was imported");
    file_len = cells[0];
    memcpy(file, output, file_len);
    run("export, what was imported", exports, EXPORT_BYTES);
    expect(refusal == 0, "export, what was imported");
}

int main(int count, char **unused) {
    (void)unused;
    told = count > 1;
    setvbuf(stdout, NULL, _IOLBF, 0); /* where a call runs over, what was told before it stays */
    questions("Exists around each other", in_exists);
    questions("Since around each other", in_since);
    questions("Exists left of Since", in_left_of_since);
    questions("And around each other", in_and);
    questions("Or around each other", in_or);
    questions("Formerly around each other", in_formerly);
    questions("Not and Exists by turns", in_not_exists);
    questions("counts of counts", in_count);
    questions("variables bound to counts of counts", in_binding);
    test_write();
    run("export, values of 2^30 parts", exports, EXPORT_BYTES);
    expect(refusal == GALIVODERN_OUTPUT_TOO_SHORT, "export, values of 2^30 parts");
    test_import(1, 0);
    test_import(0, 1);
    test_import(1, 1);
    expect(EXPORT_BYTES <= GALIVODERN_STACK_BYTES, "more than the header states");
    printf("stack: %d calls, %zu bytes at most, %d failed\n", calls, most, failed);
    return failed != 0;
}
