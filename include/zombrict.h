/* Zombrict: puts repeaters on a routed net so that the slack is the greatest possible.
 *
 * Link crates/zombrict/out/libzombrict.a, which `rt lib` proves and makes in crates/zombrict. It is for x86-64 Linux, needs
 * nothing but memcpy and memset, allocates nothing, keeps nothing between calls and may be called from many threads at once.
 *
 * A NET is a driver, and rows that hang under it as a tree: plain points and sinks, each behind a wire. A plain point has rows below
 * it, a sink has none. At a row with a site a repeater may stand, below the row's wire. The driver is row 0. Types of repeater are
 * numbered from 1, rows from 0, lines of a text from 1.
 *
 * UNITS AND RANGES. One ohm times one femtofarad is one femtosecond.
 *   resistance of a wire, a type or the driver       0 to 100,000 ohms
 *   capacitance of a wire, load of a pin or input    0 to 100,000 femtofarads
 *   own delay of a type                              0 to 1,000,000,000 femtoseconds
 *   required time of a sink                          -1,000,000,000,000 to 1,000,000,000,000 femtoseconds
 *   at most 4 types, 256 rows with the driver, 64 sites, and 32,768 bytes of text
 * A load is then at most 51,200,000 femtofarads, and a slack between -3 * 10^15 and 10^12 femtoseconds; a negative one is a result like
 * any other.
 *
 * SLACK is the least, over the sinks, of required time less arrival. A signal is delayed by the driver, its resistance times the load
 * it drives; by a wire, its resistance times its whole capacitance and the load at its far end together; and by a repeater, its own delay
 * and its resistance times the load it drives. A repeater shows its input load upward, whatever it drives.
 *
 * A NET AS TEXT has one record a line, fields parted by exactly one tab, every line ended by a line feed. First the types, if any, then
 * one driver, then the rows, each after its parent:
 *   T  input load, resistance, own delay                                              a type of repeater
 *   D  resistance                                                                     the driver
 *   W  parent, wire resistance, wire capacitance, site                                a plain point
 *   S  parent, wire resistance, wire capacitance, site, pin load, required time       a sink
 * Parent is the number of a row before, and site 1 where a repeater may stand, else 0. A number is decimal digits without leading zeros
 * or plus sign; only a required time may have a minus, and -0 is malformed. For example, with a type, a driver, a point and a sink:
 *   "T\t2\t3\t10\nD\t20\nW\t0\t4\t5\t1\nS\t1\t6\t7\t0\t8\t1000\n"
 *
 * A NET AS TABLES is three areas and two counts:
 *   types, ZOMBRICT_TYPES words, three a type: input load, resistance, own delay.
 *   rows, ZOMBRICT_ROWS words, six a row: kind (0 driver, 1 plain point, 2 sink), parent, resistance, capacitance, site, pin load.
 *   due, ZOMBRICT_DUE words, one a row: the required time.
 *   type_count, and row_count with the driver.
 * What an entry's line would lack is 0: all but the resistance of the driver, pin load and required time of a point. Entries past
 * the counts are not read. The line of an entry is the one it would have as text: type t has line t, row r of a net with type_count
 * types line type_count + r + 1.
 *
 * A PLACEMENT is ZOMBRICT_PLACEMENT words. Sites are numbered from 0 in row order; the mark of site j, 0 for none or the number of a
 * type, is the four bits from bit 4 * (j % 16) of word j / 16.
 *
 * A WORK AREA is three areas of ZOMBRICT_WORK loads, ZOMBRICT_WORK times and ZOMBRICT_WORK_WORDS words.
 *
 * AREAS. An area is a pointer, aligned as its type asks, and the number of its elements. It is yours: the call writes what is said here
 * and keeps no pointer. Areas of one call must not overlap. Each but a text has a room, however few entries are in use: one with fewer
 * elements is refused with ZOMBRICT_SHORT, of one with more the part beyond its room is neither read nor changed. A pointer may be null
 * only where its length is 0. Work areas and areas that a call writes to may hold anything before: nothing has to be cleared.
 *
 * WHAT IS RETURNED. Every call returns 0 when it is done, else the number of a refusal (below). It writes three words to the area
 * `answer`: answer[0] is the place of a refusal, 0 when done; answer[1] and answer[2] are the call's two values, 0 when refused.
 * Where `answer` has fewer than ZOMBRICT_ANSWER words the call returns ZOMBRICT_SHORT, and does and writes nothing at all.
 *
 * WHEN DONE, entries past those in use are unchanged, all four words of a returned placement are written, and the work area is all
 * zero. WHEN REFUSED, every area but `answer` holds what it held before.
 *
 * WHICH REFUSAL is given where several apply: first ZOMBRICT_SHORT, of whatever area; then ZOMBRICT_ROOM for a text that is too long;
 * then what is wrong at the first line where something is, and there the lowest number of FORM, RANGE, ROOM and PARENT; after the last
 * line CHILDLESS; then MARK, of the lowest site that has one, or NO_ROW.
 *
 * OF TABLES, FORM is a missing driver (at line type_count + 1, also where row 0 is another kind), a driver that is not row 0, a kind
 * above 2, or a word not 0 that the entry's line would lack. RANGE is a value out of its range, a parent above 255 or a site above 1.
 * ROOM is a 65th site, or a fifth type or 257th row that is counted: at its line, when all before are good, and it is not read.
 *
 * STACK. What a call needs in all is stated below, ZOMBRICT_STACK_.., in bytes: its arguments, its frames at the deepest net, and, of
 * the calls on a text, their tables and work area. What a signal's handler needs comes on top.
 */
#ifndef ZOMBRICT_H
#define ZOMBRICT_H

#include <stddef.h>
#include <stdint.h>

#ifdef __cplusplus
extern "C" {
#endif

/* Rooms, in elements. */
enum {
    ZOMBRICT_TYPES = 12,
    ZOMBRICT_ROWS = 1536,
    ZOMBRICT_DUE = 256,
    ZOMBRICT_PLACEMENT = 4,
    ZOMBRICT_LIST = 257,
    ZOMBRICT_WORK = 768,
    ZOMBRICT_WORK_WORDS = 3072,
    ZOMBRICT_ANSWER = 3,
    ZOMBRICT_TEXT = 32768 /* the longest text that is read, in bytes */
};

/* Refusals. The place is a line, counted from 1, or 0. */
enum {
    ZOMBRICT_DONE = 0,
    ZOMBRICT_FORM = 1,      /* a line, a field or the order of lines is malformed; no driver (at the first W or S, or the line after the
                             * last); last line not ended */
    ZOMBRICT_RANGE = 2,     /* a well-formed number is out of range, also a parent above 255 or a site above 1 */
    ZOMBRICT_ROOM = 3,      /* a fifth type, a 257th row, a 65th site; at place 0: a text of more than ZOMBRICT_TEXT bytes */
    ZOMBRICT_PARENT = 4,    /* the parent is not an earlier row, or is a sink */
    ZOMBRICT_CHILDLESS = 5, /* the driver or a plain point has no row below it: the line of the first such */
    ZOMBRICT_MARK = 6,      /* a placement marks a type the net hasn't, at the line of the site's row; at place 0: a site it hasn't */
    ZOMBRICT_SHORT = 7,     /* an area is shorter than its room: at place 0 */
    ZOMBRICT_NO_ROW = 8     /* the row asked for is not in the net: at place 0 */
};

/* The stack that each call needs in all, in bytes. */
enum {
    ZOMBRICT_STACK_READ = 16384,
    ZOMBRICT_STACK_CHECK = 4096,
    ZOMBRICT_STACK_SLACK = 61440,
    ZOMBRICT_STACK_PLAN = 40960,
    ZOMBRICT_STACK_LIST = 40960,
    ZOMBRICT_STACK_LOADS = 40960,
    ZOMBRICT_STACK_CHECK_TEXT = 20480,
    ZOMBRICT_STACK_SLACK_TEXT = 69632,
    ZOMBRICT_STACK_PLAN_TEXT = 81920,
    ZOMBRICT_STACK_LIST_TEXT = 81920,
    ZOMBRICT_STACK_LOADS_TEXT = 81920
};

/* Reads a net from a text into the tables. Values: how many types, how many rows. Refusals: 7, 3 at 0, 1 to 5. */
uint32_t zombrict_read(const uint8_t *text, size_t text_length,
                       uint32_t *types, size_t types_length,
                       uint32_t *rows, size_t rows_length,
                       int64_t *due, size_t due_length,
                       int64_t *answer, size_t answer_length);

/* Whether tables are a net that the other calls take. No values. Refusals: 7, 1 to 5. */
uint32_t zombrict_check(const uint32_t *types, size_t types_length,
                        const uint32_t *rows, size_t rows_length,
                        const int64_t *due, size_t due_length,
                        size_t type_count, size_t row_count,
                        int64_t *answer, size_t answer_length);

/* The slack of a given placement. Values: slack, load on the driver. Refusals: 7, 1 to 5, 6. */
uint32_t zombrict_slack(const uint32_t *types, size_t types_length,
                        const uint32_t *rows, size_t rows_length,
                        const int64_t *due, size_t due_length,
                        size_t type_count, size_t row_count,
                        const uint64_t *placement, size_t placement_length,
                        int64_t *answer, size_t answer_length);

/* Writes a placement of greatest slack and, of those, of least load on the driver.
 * Values: slack, load on the driver. Refusals: 7, 1 to 5. */
uint32_t zombrict_plan(const uint32_t *types, size_t types_length,
                       const uint32_t *rows, size_t rows_length,
                       const int64_t *due, size_t due_length,
                       size_t type_count, size_t row_count,
                       uint64_t *placement, size_t placement_length,
                       uint32_t *loads, size_t loads_length,
                       int64_t *times, size_t times_length,
                       uint64_t *words, size_t words_length,
                       int64_t *answer, size_t answer_length);

/* Writes the list of unbeaten pairs at a row, loads and times strictly rising, to areas of ZOMBRICT_LIST each. Row 0 is the driver,
 * its own delay left out. Values: how many pairs, 0. Refusals: 7, 1 to 5, 8. */
uint32_t zombrict_list(const uint32_t *types, size_t types_length,
                       const uint32_t *rows, size_t rows_length,
                       const int64_t *due, size_t due_length,
                       size_t type_count, size_t row_count,
                       size_t row,
                       uint32_t *list_loads, size_t list_loads_length,
                       int64_t *list_times, size_t list_times_length,
                       uint32_t *loads, size_t loads_length,
                       int64_t *times, size_t times_length,
                       uint64_t *words, size_t words_length,
                       int64_t *answer, size_t answer_length);

/* Writes the loads of that list alone, strictly rising, to an area of ZOMBRICT_LIST: zombrict_list with the times left out, and no area
 * for them. Values: how many pairs, 0. Refusals: 7, 1 to 5, 8. */
uint32_t zombrict_loads(const uint32_t *types, size_t types_length,
                        const uint32_t *rows, size_t rows_length,
                        const int64_t *due, size_t due_length,
                        size_t type_count, size_t row_count,
                        size_t row,
                        uint32_t *list_loads, size_t list_loads_length,
                        uint32_t *loads, size_t loads_length,
                        int64_t *times, size_t times_length,
                        uint64_t *words, size_t words_length,
                        int64_t *answer, size_t answer_length);

/* The same for a net given as text. Tables and work area are the call's own and stand on the stack. */

/* Values: how many types, how many rows. Refusals: 7 for the answer only, 3 at 0, 1 to 5. */
uint32_t zombrict_check_text(const uint8_t *text, size_t text_length,
                             int64_t *answer, size_t answer_length);

/* Values: slack, load on the driver. Refusals: 7, 3 at 0, 1 to 5, 6. */
uint32_t zombrict_slack_text(const uint8_t *text, size_t text_length,
                             const uint64_t *placement, size_t placement_length,
                             int64_t *answer, size_t answer_length);

/* Values: slack, load on the driver. Refusals: 7, 3 at 0, 1 to 5. */
uint32_t zombrict_plan_text(const uint8_t *text, size_t text_length,
                            uint64_t *placement, size_t placement_length,
                            int64_t *answer, size_t answer_length);

/* Values: how many pairs, 0. Refusals: 7, 3 at 0, 1 to 5, 8. */
uint32_t zombrict_list_text(const uint8_t *text, size_t text_length,
                            size_t row,
                            uint32_t *list_loads, size_t list_loads_length,
                            int64_t *list_times, size_t list_times_length,
                            int64_t *answer, size_t answer_length);

/* Values: how many pairs, 0. Refusals: 7, 3 at 0, 1 to 5, 8. */
uint32_t zombrict_loads_text(const uint8_t *text, size_t text_length,
                             size_t row,
                             uint32_t *list_loads, size_t list_loads_length,
                             int64_t *answer, size_t answer_length);

#ifdef __cplusplus
}
#endif

#endif
