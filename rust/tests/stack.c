/* The stack that each call needs, measured on its deepest nets and held to the figure that the header states for it.
 *
 * A call is made on a painted stack of its own: the lowest byte that is no longer painted tells how far it went. Then it is made on one of
 * just the stated size, below which nothing can be touched. A line for each call is written: what it needs, and what is stated. Exit
 * status 1 where a call needs more than is stated, or answers other than it should; touching what lies below ends the program.
 */
#define _GNU_SOURCE
#include <inttypes.h>
#include <stdarg.h>
#include <stdio.h>
#include <stdlib.h>
#include <string.h>
#include <sys/mman.h>

#include "zombrict.h"

#define AREA(a) (a), sizeof(a) / sizeof((a)[0])

enum { TYPE_COUNT = 4, ROW_COUNT = 256, SITES = 64, PAGE = 4096, ROOMY = 1 << 18 };
enum { DRIVER = 0, POINT = 1, SINK = 2, MOST = 100000 };

/* What is lent to the calls. */
static uint32_t types[ZOMBRICT_TYPES], rows[ZOMBRICT_ROWS], loads[ZOMBRICT_WORK], list_loads[ZOMBRICT_LIST];
static int64_t due[ZOMBRICT_DUE], times[ZOMBRICT_WORK], list_times[ZOMBRICT_LIST], answer[ZOMBRICT_ANSWER];
static uint64_t words[ZOMBRICT_WORK_WORDS], placement[ZOMBRICT_PLACEMENT];
static uint32_t read_types[ZOMBRICT_TYPES], read_rows[ZOMBRICT_ROWS];
static int64_t read_due[ZOMBRICT_DUE];
static uint8_t text[ZOMBRICT_TEXT + 1];
static size_t text_length, asked_row;
static uint32_t refusal;

#define TABLES AREA(types), AREA(rows), AREA(due), TYPE_COUNT, ROW_COUNT
#define WORK AREA(loads), AREA(times), AREA(words)
#define LIST AREA(list_loads), AREA(list_times)

static void read_call(void)
{
    refusal = zombrict_read(text, text_length, AREA(read_types), AREA(read_rows), AREA(read_due), AREA(answer));
}
static void check_call(void) { refusal = zombrict_check(TABLES, AREA(answer)); }
static void slack_call(void) { refusal = zombrict_slack(TABLES, AREA(placement), AREA(answer)); }
static void plan_call(void) { refusal = zombrict_plan(TABLES, AREA(placement), WORK, AREA(answer)); }
static void list_call(void) { refusal = zombrict_list(TABLES, asked_row, LIST, WORK, AREA(answer)); }
static void loads_call(void) { refusal = zombrict_loads(TABLES, asked_row, AREA(list_loads), WORK, AREA(answer)); }
static void check_text_call(void) { refusal = zombrict_check_text(text, text_length, AREA(answer)); }
static void slack_text_call(void) { refusal = zombrict_slack_text(text, text_length, AREA(placement), AREA(answer)); }
static void plan_text_call(void) { refusal = zombrict_plan_text(text, text_length, AREA(placement), AREA(answer)); }
static void list_text_call(void) { refusal = zombrict_list_text(text, text_length, asked_row, LIST, AREA(answer)); }
static void loads_text_call(void) { refusal = zombrict_loads_text(text, text_length, asked_row, AREA(list_loads), AREA(answer)); }

static struct call {
    const char *name;
    void (*run)(void);
    size_t stated, needed;
    int of_text;
} calls[] = {
    {"zombrict_read", read_call, ZOMBRICT_STACK_READ, 0, 1},
    {"zombrict_check", check_call, ZOMBRICT_STACK_CHECK, 0, 0},
    {"zombrict_slack", slack_call, ZOMBRICT_STACK_SLACK, 0, 0},
    {"zombrict_plan", plan_call, ZOMBRICT_STACK_PLAN, 0, 0},
    {"zombrict_list", list_call, ZOMBRICT_STACK_LIST, 0, 0},
    {"zombrict_loads", loads_call, ZOMBRICT_STACK_LOADS, 0, 0},
    {"zombrict_check_text", check_text_call, ZOMBRICT_STACK_CHECK_TEXT, 0, 1},
    {"zombrict_slack_text", slack_text_call, ZOMBRICT_STACK_SLACK_TEXT, 0, 1},
    {"zombrict_plan_text", plan_text_call, ZOMBRICT_STACK_PLAN_TEXT, 0, 1},
    {"zombrict_list_text", list_text_call, ZOMBRICT_STACK_LIST_TEXT, 0, 1},
    {"zombrict_loads_text", loads_text_call, ZOMBRICT_STACK_LOADS_TEXT, 0, 1},
};
enum { CALLS = sizeof calls / sizeof calls[0] };

static void fail(const char *what, const char *name)
{
    fprintf(stderr, "stack: %s: %s\n", name, what);
    exit(1);
}

/* ---- A stack of one's own. */

/* Runs with the stack pointer at `top`, a multiple of 16. */
static void run_at(void *top, void (*run)(void))
{
    __asm__ volatile("movq %%rsp, %%rbx\n\tmovq %0, %%rsp\n\tcall *%1\n\tmovq %%rbx, %%rsp"
                     : "+r"(top), "+r"(run)
                     :
                     : "rax", "rbx", "rcx", "rdx", "rsi", "rdi", "r8", "r9", "r10", "r11", "xmm0", "xmm1", "xmm2", "xmm3", "xmm4",
                       "xmm5", "xmm6", "xmm7", "xmm8", "xmm9", "xmm10", "xmm11", "xmm12", "xmm13", "xmm14", "xmm15", "memory", "cc");
}

/* The lowest byte of `size`, a multiple of PAGE, with a page below it that cannot be touched. */
static uint8_t *stack_of(size_t size)
{
    uint8_t *guard = mmap(NULL, size + PAGE, PROT_READ | PROT_WRITE, MAP_PRIVATE | MAP_ANONYMOUS, -1, 0);
    if (size % PAGE != 0 || guard == MAP_FAILED || mprotect(guard, PAGE, PROT_NONE) != 0)
        fail("no such stack", "mmap");
    return guard + PAGE;
}

/* How much of a roomy stack is written to, whatever stood there: over two paints, so that no written byte looks like paint. */
static size_t needed_by(uint8_t *roomy, void (*run)(void))
{
    size_t needed = 0;
    for (int paint = 0x5a; paint <= 0xa5; paint += 0xa5 - 0x5a) {
        size_t at = 0;
        memset(roomy, paint, ROOMY);
        run_at(roomy + ROOMY, run);
        while (at < ROOMY && roomy[at] == paint)
            at++;
        if (needed < ROOMY - at)
            needed = ROOMY - at;
    }
    return needed;
}

/* Something that needs a little over 50,000 bytes, to try the measure by. */
static void fifty_thousand(void)
{
    volatile uint8_t bytes[50000];
    for (size_t i = 0; i < sizeof bytes; i++)
        bytes[i] = (uint8_t)i;
    refusal = bytes[sizeof bytes / 2];
}

/* ---- Nets of 256 rows, as tables and as text. */

static void set_row(int row, uint32_t kind, uint32_t parent)
{
    const uint32_t of[6] = {kind, parent, row == 0 ? 20 : MOST, kind == DRIVER ? 0 : MOST, 0, kind == SINK ? MOST : 0};
    memcpy(rows + 6 * row, of, sizeof of);
    due[row] = kind == SINK ? -INT64_C(1000000000000) : 0;
}

/* Each row under the one before. */
static void chain(void)
{
    for (int row = 1; row < ROW_COUNT; row++)
        set_row(row, row == ROW_COUNT - 1 ? SINK : POINT, (uint32_t)row - 1);
}

/* Every row under the driver. */
static void star(void)
{
    for (int row = 1; row < ROW_COUNT; row++)
        set_row(row, SINK, 0);
}

/* A chain with a sink beside each of its points, before or after the next point. */
static void comb(int sink_first)
{
    uint32_t spine = 0;
    for (int row = 1; row + 1 < ROW_COUNT; row += 2) {
        int point = sink_first ? row + 1 : row;
        set_row(sink_first ? row : row + 1, SINK, spine);
        set_row(point, POINT, spine);
        spine = (uint32_t)point;
    }
    set_row(ROW_COUNT - 1, SINK, spine);
}
static void comb_sinks_first(void) { comb(1); }
static void comb_sinks_last(void) { comb(0); }

/* A chain with a point and its sink beside each point: what two points hang under is what the planner recurses into. */
static void forks(int side_first)
{
    uint32_t spine = 0;
    int row = 1;
    for (; row + 3 < ROW_COUNT; row += 3) {
        int point = side_first ? row + 2 : row;
        int side = side_first ? row : row + 1;
        set_row(point, POINT, spine);
        set_row(side, POINT, spine);
        set_row(side + 1, SINK, (uint32_t)side);
        spine = (uint32_t)point;
    }
    for (; row < ROW_COUNT; row++)
        set_row(row, SINK, spine);
}
static void forks_sides_first(void) { forks(1); }
static void forks_sides_last(void) { forks(0); }

/* Points, each under one of the last few rows; then a sink for each that has nothing below it, and the rest under the driver. */
static uint64_t seed = 1;
static int drawn(int end)
{
    seed = seed * UINT64_C(6364136223846793005) + UINT64_C(1442695040888963407);
    return (int)(seed >> 33) % end;
}
static void any_tree(void)
{
    uint8_t has_rows[ROW_COUNT] = {0};
    int back = 1 + drawn(8), row = 1, bare = 1;
    while (row + bare + 1 < ROW_COUNT) {
        int parent = row - 1 - drawn(row < back ? row : back);
        bare += has_rows[parent];
        has_rows[parent] = 1;
        set_row(row++, POINT, (uint32_t)parent);
    }
    for (int point = 0, points = row; row < ROW_COUNT; point++)
        if (points <= point || !has_rows[point])
            set_row(row++, SINK, (uint32_t)(point < points ? point : 0));
}

static void (*const shapes[])(void) = {chain, star, comb_sinks_first, comb_sinks_last, forks_sides_first, forks_sides_last, any_tree};
enum { SHAPES = sizeof shapes / sizeof shapes[0], ANY = SHAPES - 1, ANY_TREES = 50 };

/* 64 sites, on the last rows or on the first. */
static void set_sites(int last)
{
    for (int site = 0; site < SITES; site++)
        rows[6 * (last ? ROW_COUNT - 1 - site : 1 + site) + 4] = 1;
}

static void add(const char *form, ...)
{
    va_list values;
    va_start(values, form);
    text_length += (size_t)vsnprintf((char *)text + text_length, sizeof text - text_length, form, values);
    va_end(values);
}

static void write_text(void)
{
    text_length = 0;
    for (int type = 0; type < TYPE_COUNT; type++)
        add("T\t%" PRIu32 "\t%" PRIu32 "\t%" PRIu32 "\n", types[3 * type], types[3 * type + 1], types[3 * type + 2]);
    add("D\t%" PRIu32 "\n", rows[2]);
    for (int row = 1; row < ROW_COUNT; row++) {
        const uint32_t *of = rows + 6 * row;
        add("%c\t%" PRIu32 "\t%" PRIu32 "\t%" PRIu32 "\t%" PRIu32, of[0] == SINK ? 'S' : 'W', of[1], of[2], of[3], of[4]);
        if (of[0] == SINK)
            add("\t%" PRIu32 "\t%" PRId64, of[5], due[row]);
        add("\n");
    }
}

/* The last number made so long that the text has `length` bytes. */
static void lengthen(size_t length)
{
    memset(text + text_length - 1, '9', length - text_length);
    text[length - 1] = '\n';
    text_length = length;
}

/* ---- Each call on each net. */

static uint8_t *roomy, *stated[CALLS];

static void try_call(int which, uint32_t expected)
{
    struct call *call = &calls[which];
    size_t needed = needed_by(roomy, call->run);
    if (refusal != expected)
        fail("another answer than expected", call->name);
    if (call->needed < needed)
        call->needed = needed;
    if (call->stated < needed) {
        fprintf(stderr, "stack: %s needs %zu bytes and %zu are stated\n", call->name, needed, call->stated);
        exit(1);
    }
    run_at(stated[which] + call->stated, call->run);
    if (refusal != expected)
        fail("another answer on the stated stack", call->name);
}

static void try_calls(int of_text, uint32_t expected)
{
    for (int which = 0; which < CALLS; which++)
        if (calls[which].of_text == of_text) {
            memset(placement, 0x44, sizeof placement); /* type 4 at every site */
            try_call(which, expected);
        }
}

static void try_net(void)
{
    set_row(0, DRIVER, 0);
    write_text();
    for (asked_row = 0; asked_row < 2; asked_row++) {
        try_calls(0, ZOMBRICT_DONE);
        try_calls(1, ZOMBRICT_DONE);
    }
}

int main(void)
{
    roomy = stack_of(ROOMY);
    size_t tried = needed_by(roomy, fifty_thousand);
    if (tried < 50000 || 50500 < tried)
        fail("the measure is wrong", "measure");
    for (int which = 0; which < CALLS; which++)
        stated[which] = stack_of(calls[which].stated);
    for (int word = 0; word < ZOMBRICT_TYPES; word++)
        types[word] = (uint32_t)(word % 3 == 0 ? word + 1 : 3);
    for (int trial = 0; trial < ANY + ANY_TREES; trial++)
        for (int last = 0; last < 2; last++) {
            shapes[trial < ANY ? trial : ANY]();
            set_sites(last);
            try_net();
        }
    lengthen(ZOMBRICT_TEXT);
    try_calls(1, ZOMBRICT_RANGE);
    lengthen(ZOMBRICT_TEXT + 1);
    try_calls(1, ZOMBRICT_ROOM);
    for (int which = 0; which < CALLS; which++)
        printf("%s needs %zu of %zu\n", calls[which].name, calls[which].needed, calls[which].stated);
    return 0;
}
