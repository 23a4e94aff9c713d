/* Galivodern: rules over a board's log, checked by proved code.
 *
 * A case is one file: a log of points, and rules over it as numbered nodes.
 * You check a case once, then ask a condition or an aggregate at a point, and
 * get yes or no or a number; or you ask for the rows that a condition finds.
 *
 * Every call keeps to what you lend it. It allocates nothing, keeps nothing
 * from one call to the next, and reads and writes only the arrays passed to
 * it, so calls on buffers of their own may run side by side.
 *
 * What you owe:
 *   - each pointer leads to as many items as the count after it says, and is
 *     aligned for its type; with a count of 0 nothing is read or written there,
 *     but the pointer must not be NULL;
 *   - an array that a call may write to overlaps no other array of that call;
 *   - the galivodern_checked_ calls get a file for which galivodern_check has
 *     returned 0, unchanged since. The other calls take any bytes;
 *   - 768 KiB of stack are left (GALIVODERN_STACK_BYTES). How deep calls go is bounded by the
 *     limits on a value's depth and a node's height; the deepest cases known stay below
 *     720 KiB for an export, 568 to write, 384 for a question, 200 for a check and 48 for an
 *     import, on x86-64 (tests/c/stack.c runs them on threads of these sizes).
 *
 * Link libgalivodern.a: tools/install puts it in place, with a file for
 * pkg-config (`cc main.c $(pkg-config --cflags --libs galivodern)`).
 */
#ifndef GALIVODERN_H
#define GALIVODERN_H

#include <stddef.h>
#include <stdint.h>

#ifdef __cplusplus
extern "C" {
#endif

/* What a call returns: 0 for an answer, else why there is none. */
enum galivodern_refusal {
    GALIVODERN_ANSWERED = 0,
    GALIVODERN_BAD_CONTENTS = 1,      /* shorter than 64 bytes, edition not 1, or tables misplaced */
    GALIVODERN_TOO_LARGE = 2,         /* file, a table or the number of variables above its most */
    GALIVODERN_BAD_STRINGS = 3,       /* a string rule is broken */
    GALIVODERN_BAD_VALUES = 4,        /* a value or member rule is broken, or a value is too deep */
    GALIVODERN_BAD_POINTS = 5,        /* a point or entity rule is broken */
    GALIVODERN_BAD_NODES = 6,         /* a node rule is broken, or a node is too high */
    GALIVODERN_NO_SUCH_POINT = 7,     /* the case has no such point */
    GALIVODERN_NO_SUCH_NODE = 8,      /* no such node, or none that the call is about */
    GALIVODERN_BAD_START = 9,         /* the starting bindings are malformed */
    GALIVODERN_BAD_LIMITS = 10,       /* a limit above its most, or a workspace or room too small */
    GALIVODERN_STEPS_EXHAUSTED = 11,  /* the answer takes more steps than allowed */
    GALIVODERN_ROOM_EXHAUSTED = 12,   /* the answer takes more rows than allowed */
    GALIVODERN_BAD_OUTPUT = 13,       /* output too short, or a binder that is no variable */
    GALIVODERN_OUTPUT_TOO_SHORT = 14, /* what is to be written is longer than the output */
    GALIVODERN_LIST_TOO_SHORT = 15,   /* the list has fewer cells than there are points to show */
    /* of JSON logs */
    GALIVODERN_NOT_JSON = 20,         /* a line is no JSON, or half of a surrogate pair stands alone */
    GALIVODERN_REPEATED_NAME = 21,    /* an object has a name twice */
    GALIVODERN_BAD_NUMBER = 22,       /* a number is no integer within 64 bits */
    GALIVODERN_BAD_FIELD = 23,        /* a field is missing, unknown or of the wrong sort */
    GALIVODERN_TOO_DEEP = 24,         /* a value is more than 32 deep */
    GALIVODERN_AMBIGUOUS_OBJECT = 25, /* an object would be read as an entity or a decimal */
    /* of this layer alone: `contents`, `told`, `written` or `imported` too short, and nothing was done */
    GALIVODERN_TOO_FEW_CELLS = 100
};

/* The most that is allowed of a call's limits. */
#define GALIVODERN_MOST_STEPS 1000000000u
#define GALIVODERN_MOST_ROOM 16384u

/* The most bytes that a case may have. */
#define GALIVODERN_MOST_BYTES 4194304u

/* Bytes of stack that a call is to find left. */
#define GALIVODERN_STACK_BYTES 786432u

/* Cells of `contents`, of `told`, of `written` and of `imported` that a call needs. */
#define GALIVODERN_CONTENTS_CELLS 5
#define GALIVODERN_TOLD_CELLS 4
#define GALIVODERN_WRITTEN_CELLS 1
#define GALIVODERN_IMPORTED_CELLS 4

/* What `contents` holds after a check that passes. */
enum galivodern_contents {
    GALIVODERN_VARIABLES = 0, /* V: variables are numbered from 0 to V - 1 */
    GALIVODERN_STRINGS = 1,
    GALIVODERN_VALUES = 2,
    GALIVODERN_POINTS = 3,
    GALIVODERN_NODES = 4
};

/* What `told` holds after a call that returned 0 to 15, a refusal too. */
enum galivodern_told {
    GALIVODERN_ANSWER = 0, /* see each call; 0 where it refused */
    GALIVODERN_STEPS = 1,  /* steps spent; 0 for refusals 1 to 10 */
    GALIVODERN_HELD = 2,   /* greatest number of rows held at once; 0 for refusals 1 to 10 */
    GALIVODERN_SORT = 3,   /* of galivodern_ask: one of those below; 0 where it refused, and for rows */
    GALIVODERN_FILLED = 3  /* of galivodern_carried: cells of the list that were filled; 0 where it refused */
};

/* What the answer of galivodern_ask is. */
enum galivodern_sort {
    GALIVODERN_VERDICT = 0, /* a condition's: 1 for yes, 0 for no */
    GALIVODERN_NUMBER = 1   /* an aggregate's: its 64 bits, to be read as int64_t */
};

/* Checks a case. Returns 0, or a refusal from 1 to 6: the lowest that applies.
 * On 0 the first five cells of `contents` are filled. Else it is unchanged. */
uint64_t galivodern_check(const uint8_t *file, size_t file_len, uint64_t *contents, size_t contents_len);

/* Writes a case. Takes:
 *
 *   unsorted   an unsorted case: a case file in all but its strings, which may stand
 *              in any order, be equal, overlap and leave gaps in text. All else (values,
 *              members, points, nodes, lists) is as it will be in the case, only that
 *              strings have the numbers that they have here;
 *   marks      a byte for each word of the lists: not 0 where the word is a string's
 *              number (namespaces, paths, an entity's type and id), 0 where it is
 *              another (an entity's attributes, an argument's three words, binders).
 *              A word that no point and no node uses may be marked either way;
 *   room       bytes to make the finished case in, before the output is touched: as many
 *              as it will have. GALIVODERN_MOST_BYTES always suffice. Whatever is in it
 *              counts for nothing. On 0, 3 to 6 and 14 it begins with the finished case;
 *              on 1, 2 and 10, and behind the finished case, it is unchanged;
 *   output     where the case goes. It changes only on 0, in the bytes written;
 *   written    a cell for the number of bytes written; 0 where the call refuses.
 *
 * The finished case has each different string once, in rising byte order; every
 * number of a string is the new one; a number that is none of a string stays. Members
 * and entities are not sorted: they have to rise by the text of their names as they
 * stand. A checked case that is written with right marks comes out as it is.
 *
 * Returns 0, and then galivodern_check passes what was written; or the first of these:
 *
 *   1    no tables: shorter than 64 bytes, edition not 1, tables misplaced; or the
 *        marks are not one for each list word;
 *   2    the finished case, one of its tables or V above its most: strings count once
 *        they are joined, the unsorted case may be as long as it likes;
 *   10   the room is shorter than the finished case;
 *   3    a string leaves text, or is not UTF-8;
 *   4    a value or member rule is broken, or a value is too deep;
 *   5    a point or entity rule is broken, or a point uses a list word against its mark;
 *   6    a node rule is broken, or a node is too high, or it uses a list word against
 *        its mark;
 *   14   the output is shorter than the finished case;
 *   100  `written` has no cell: nothing was done. */
uint64_t galivodern_write(const uint8_t *unsorted, size_t unsorted_len, const uint8_t *marks, size_t marks_len,
                          uint8_t *room, size_t room_len, uint8_t *output, size_t output_len, uint64_t *written,
                          size_t written_len);

/* What `imported` holds after an import that returned 0 to 24, a refusal too. What
 * does not apply is 0. */
enum galivodern_imported {
    GALIVODERN_TRACE_BYTES = 0, /* on 0: bytes of the trace */
    GALIVODERN_TRACE_MARKS = 1, /* on 0: bytes of its marks */
    GALIVODERN_AT = 2,          /* on 20 to 24: the place of the fault, in bytes from the text's start */
    GALIVODERN_FIRST = 3        /* on 21: the place of the first of the two names; on 20 and 22 to 24: as GALIVODERN_AT */
};

/* Reads a JSON log: a line for each event, as docs/JSON-LOGS.md describes it. Takes:
 *
 *   text       the log, any bytes. A line ends at a line feed, the last one also at
 *              the text's end; every line is an event;
 *   work       a workspace for the names of open objects: a cell for each four bytes
 *              of the text, (text_len + 3) / 4. Whatever is in it counts for nothing;
 *              after any return but 10 and 100 those cells are 0. Later ones never change;
 *   trace      where the events go: an unsorted case, to be given to galivodern_write
 *              with its marks. 64 bytes and 12 for each byte of the text always suffice;
 *   marks      its marks. As many bytes as the text has always suffice. Trace and marks
 *              change only on 0, in the bytes written;
 *   imported   four cells: what was written, or where the fault is.
 *
 * Returns 0; or the first of these that applies:
 *
 *   10        the workspace is too short;
 *   20 to 24  the text's first fault, as it is read from its start on;
 *   2         the trace would be longer than 4,294,967,295 bytes;
 *   14        the trace or its marks are longer than what is lent;
 *   100       `imported` has fewer than four cells: nothing was done.
 *
 * galivodern_write refuses what is no case: 2 where there are too many events, 5 where
 * an event has an entity twice or a quotation mark in an entity's type. */
uint64_t galivodern_import(const uint8_t *text, size_t text_len, uint64_t *work, size_t work_len, uint8_t *trace,
                           size_t trace_len, uint8_t *marks, size_t marks_len, uint64_t *imported,
                           size_t imported_len);

/* Writes the points of a case as a JSON log: a line for each, with no blanks, members in
 * the order of their names. Imported and written again they are the same points. Takes
 * any file, the output, which changes only on 0, in the bytes written, and a cell for
 * the number of bytes written; 0 where the call refuses.
 *
 * Returns 0; or the first of these that applies:
 *
 *   1 to 6    what galivodern_check says of the file;
 *   25        a point reaches an object whose only member is named __entity or __extn:
 *             it would be read as an entity or a decimal;
 *   14        the text is longer than the output. Values that points share are written
 *             for each, so a text may be much longer than its case;
 *   100       `written` has no cell: nothing was done. */
uint64_t galivodern_export(const uint8_t *file, size_t file_len, uint8_t *output, size_t output_len,
                           uint64_t *written, size_t written_len);

/* The window test: where time `to` lies, seen from time `from`, in a window of
 * `span` seconds. It needs no case and takes any numbers. A span is an amount
 * times its unit, or the nearest number that 64 bits hold. Under a negative span
 * nothing is inside: a time is later, or too old. */
enum galivodern_seen {
    GALIVODERN_INSIDE = 0,  /* at least 0 and at most `span` seconds before */
    GALIVODERN_TOO_OLD = 1, /* further back */
    GALIVODERN_LATER = 2    /* stamped after `from` */
};

uint64_t galivodern_window(int64_t span, int64_t from, int64_t to);

/* The seconds from `to` to `from`, or the nearest number that 64 bits hold:
 * negative exactly for a later `to`. */
int64_t galivodern_difference(int64_t from, int64_t to);

/* The questions take:
 *
 *   point, node   where to ask, and what: a condition or, not for rows, an aggregate;
 *   start         starting bindings, exactly 2 * V cells, two for each variable:
 *                   0, 0   unbound
 *                   1, n   the integer with the 64 bits n
 *                   2, v   value number v of the case, if that is no integer
 *                   3, s   string number s of the case, as an entity's own id or type;
 *   steps, room   the most steps that may be spent and the most rows that may be held;
 *   work          a workspace of at least 2 * V * room cells. Whatever is in it
 *                 counts for nothing. After 0, 11, 12, 13 or 15 its first
 *                 2 * V * room cells are 0; later ones never change;
 *   told          at least four cells for the answer, steps, rows and the answer's sort.
 *
 * They return 0 for an answer, else the lowest refusal that applies, save that
 * of 11 and 12 the one that is met first is given. Refusals 1 to 10 write
 * nothing but `told`; 100 writes nothing at all. */

/* Asks a node, be it a condition or an aggregate: GALIVODERN_SORT tells which
 * the answer is. */
uint64_t galivodern_ask(const uint8_t *file, size_t file_len, size_t point, uint32_t node,
                        const uint64_t *start, size_t start_len, uint64_t steps, size_t room,
                        uint64_t *work, size_t work_len, uint64_t *told, size_t told_len);

/* The rows of a condition, on the variables in `binders`, each row once: the
 * answer is their number. On 0 the first 2 * binders_len cells for each row are
 * filled in `output`, two a binder as in `start`, 0, 0 where the row binds
 * nothing. Else, and beyond those cells, `output` is unchanged. */
uint64_t galivodern_rows(const uint8_t *file, size_t file_len, size_t point, uint32_t node,
                         const uint64_t *start, size_t start_len, uint64_t steps, size_t room,
                         uint64_t *work, size_t work_len, const uint32_t *binders, size_t binders_len,
                         uint64_t *output, size_t output_len, uint64_t *told, size_t told_len);

/* Which event carried the yes: a node that is itself a formerly, a previous or a
 * since is asked, the answer is 1 for yes, 0 for no, and `list` gets the numbers
 * of the points that made it:
 *
 *   yes, formerly or previous   the point that carries: the latest in the window
 *                               at which it holds;
 *   yes, since                  that point, and each one after it up to `point`;
 *   no, since                   each point in the window at which right held, the
 *                               latest first, and after it the first later point
 *                               at which left failed;
 *   any other no                nothing.
 *
 * Each question that this takes is a walk of its own under the two limits: steps
 * and rows are 0 where it answers, and those of the first question that is refused
 * on 11 and 12. Any other node is refused 8. 15 comes last, with 0 and 0. `list`
 * changes only on 0, in its first GALIVODERN_FILLED cells. */
uint64_t galivodern_carried(const uint8_t *file, size_t file_len, size_t point, uint32_t node,
                            const uint64_t *start, size_t start_len, uint64_t steps, size_t room,
                            uint64_t *work, size_t work_len, uint64_t *list, size_t list_len, uint64_t *told,
                            size_t told_len);

/* The same on a case that has passed galivodern_check, for those who ask many
 * questions of one case: what the calls above give, without checking again.
 * With a case that has not passed, what happens is undefined. */
uint64_t galivodern_checked_ask(const uint8_t *file, size_t file_len, size_t point, uint32_t node,
                                const uint64_t *start, size_t start_len, uint64_t steps, size_t room,
                                uint64_t *work, size_t work_len, uint64_t *told, size_t told_len);

uint64_t galivodern_checked_rows(const uint8_t *file, size_t file_len, size_t point, uint32_t node,
                                 const uint64_t *start, size_t start_len, uint64_t steps, size_t room,
                                 uint64_t *work, size_t work_len, const uint32_t *binders, size_t binders_len,
                                 uint64_t *output, size_t output_len, uint64_t *told, size_t told_len);

uint64_t galivodern_checked_carried(const uint8_t *file, size_t file_len, size_t point, uint32_t node,
                                    const uint64_t *start, size_t start_len, uint64_t steps, size_t room,
                                    uint64_t *work, size_t work_len, uint64_t *list, size_t list_len,
                                    uint64_t *told, size_t told_len);

/* What a call's return means, in a sentence without a full stop; never NULL.
 * A number that no call returns is told as such. */
static inline const char *galivodern_refusal_text(uint64_t returned) {
    switch (returned) {
    case GALIVODERN_ANSWERED:
        return "answered";
    case GALIVODERN_BAD_CONTENTS:
        return "no case file: shorter than 64 bytes, not of edition 1, or its tables are misplaced or cut short";
    case GALIVODERN_TOO_LARGE:
        return "the file, one of its tables or its number of variables is larger than allowed";
    case GALIVODERN_BAD_STRINGS:
        return "a string is not UTF-8, or the strings are not in rising order or do not fill the text";
    case GALIVODERN_BAD_VALUES:
        return "a value or a member breaks a rule of the case file, or a value is more than 32 deep";
    case GALIVODERN_BAD_POINTS:
        return "a point or one of its entities breaks a rule of the case file";
    case GALIVODERN_BAD_NODES:
        return "a node breaks a rule of the case file, or a node is more than 64 high";
    case GALIVODERN_NO_SUCH_POINT:
        return "the case has no such point";
    case GALIVODERN_NO_SUCH_NODE:
        return "the case has no such node, or it is none that this call is about: a term, for rows a count or a sum, "
               "for carried what is no formerly, previous or since";
    case GALIVODERN_BAD_START:
        return "a starting binding is malformed: no such variable, no such value or string, or an integer given as a "
               "value's number";
    case GALIVODERN_BAD_LIMITS:
        return "more than 1,000,000,000 steps or room for more than 16,384 rows is asked for, or the workspace is too "
               "small, or the room to write a case in";
    case GALIVODERN_STEPS_EXHAUSTED:
        return "the answer takes more steps than allowed";
    case GALIVODERN_ROOM_EXHAUSTED:
        return "the answer takes more rows than allowed";
    case GALIVODERN_BAD_OUTPUT:
        return "rows are asked for a variable that the case does not have, or the output is too short";
    case GALIVODERN_OUTPUT_TOO_SHORT:
        return "what is to be written is longer than the output";
    case GALIVODERN_LIST_TOO_SHORT:
        return "the list is too short for the points that made the answer";
    case GALIVODERN_NOT_JSON:
        return "a line of the log is no JSON, or half of a surrogate pair stands alone in it";
    case GALIVODERN_REPEATED_NAME:
        return "a name stands twice in one object of the log";
    case GALIVODERN_BAD_NUMBER:
        return "a number of the log is no integer within 64 bits";
    case GALIVODERN_BAD_FIELD:
        return "a field of an event is missing, unknown or of the wrong sort";
    case GALIVODERN_TOO_DEEP:
        return "a value of the log is more than 32 deep";
    case GALIVODERN_AMBIGUOUS_OBJECT:
        return "an object whose only member is named __entity or __extn would be read as an entity or a decimal";
    case GALIVODERN_TOO_FEW_CELLS:
        return "`contents`, `told`, `written` or `imported` has too few cells: nothing was done";
    default:
        return "a number that no call returns";
    }
}

#ifdef __cplusplus
}
#endif

#endif
