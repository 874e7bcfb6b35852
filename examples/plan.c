/* Plans net A twice, as text and as tables, shows the list at its row 1, the loads of that list alone, and a refusal.
 *
 *   (cd crates/zombrict && rt lib)
 *   mkdir -p target
 *   cc -Iinclude examples/plan.c crates/zombrict/out/libzombrict.a -o target/plan-example && target/plan-example
 */
#include <inttypes.h>
#include <stdio.h>
#include <string.h>

#include "zombrict.h"

/* An area with its number of elements, as every call takes it. */
#define AREA(a) (a), sizeof(a) / sizeof((a)[0])

static uint32_t types[ZOMBRICT_TYPES];
static uint32_t rows[ZOMBRICT_ROWS];
static int64_t due[ZOMBRICT_DUE];
static uint32_t loads[ZOMBRICT_WORK];
static int64_t times[ZOMBRICT_WORK];
static uint64_t words[ZOMBRICT_WORK_WORDS];

static void show_plan(const char *net, uint32_t refusal, const int64_t *answer, const uint64_t *placement)
{
    if (refusal != ZOMBRICT_DONE) {
        printf("%s: refused %" PRIu32 " at %" PRId64 "\n", net, refusal, answer[0]);
        return;
    }
    printf("%s: slack %" PRId64 ", load %" PRId64 "\n", net, answer[1], answer[2]);
    for (int site = 0; site < 64; site++) {
        unsigned mark = (unsigned)(placement[site / 16] >> (4 * (site % 16)) & 15);
        if (mark != 0)
            printf("  site %d: type %u\n", site, mark);
    }
}

static void plan_text(const char *name, const char *text)
{
    uint64_t placement[ZOMBRICT_PLACEMENT];
    int64_t answer[ZOMBRICT_ANSWER];
    uint32_t refusal = zombrict_plan_text((const uint8_t *)text, strlen(text), AREA(placement), AREA(answer));
    show_plan(name, refusal, answer, placement);
}

static void plan_tables(void)
{
    const uint32_t type[3] = {2, 3, 10};
    const uint32_t net[3][6] = {
        {0, 0, 20, 0, 0, 0}, /* the driver */
        {1, 0, 4, 5, 1, 0},  /* a point with a site */
        {2, 1, 6, 7, 0, 8},  /* a sink */
    };
    uint64_t placement[ZOMBRICT_PLACEMENT];
    int64_t answer[ZOMBRICT_ANSWER];
    memcpy(types, type, sizeof type);
    memcpy(rows, net, sizeof net);
    due[2] = 1000;
    uint32_t refusal = zombrict_plan(AREA(types), AREA(rows), AREA(due), 1, 3, AREA(placement),
                                     AREA(loads), AREA(times), AREA(words), AREA(answer));
    show_plan("net A as tables", refusal, answer, placement);
}

static void list_row(size_t row)
{
    uint32_t list_loads[ZOMBRICT_LIST];
    int64_t list_times[ZOMBRICT_LIST];
    int64_t answer[ZOMBRICT_ANSWER];
    uint32_t refusal = zombrict_list(AREA(types), AREA(rows), AREA(due), 1, 3, row, AREA(list_loads), AREA(list_times),
                                     AREA(loads), AREA(times), AREA(words), AREA(answer));
    if (refusal != ZOMBRICT_DONE) {
        printf("row %zu: refused %" PRIu32 " at %" PRId64 "\n", row, refusal, answer[0]);
        return;
    }
    printf("row %zu:", row);
    for (int64_t i = 0; i < answer[1]; i++)
        printf(" (%" PRIu32 ", %" PRId64 ")", list_loads[i], list_times[i]);
    printf("\n");
}

/* For a display that reads loads only. */
static void loads_of_row(size_t row)
{
    uint32_t list_loads[ZOMBRICT_LIST];
    int64_t answer[ZOMBRICT_ANSWER];
    uint32_t refusal = zombrict_loads(AREA(types), AREA(rows), AREA(due), 1, 3, row, AREA(list_loads),
                                      AREA(loads), AREA(times), AREA(words), AREA(answer));
    if (refusal != ZOMBRICT_DONE) {
        printf("loads at row %zu: refused %" PRIu32 " at %" PRId64 "\n", row, refusal, answer[0]);
        return;
    }
    printf("loads at row %zu:", row);
    for (int64_t i = 0; i < answer[1]; i++)
        printf(" %" PRIu32, list_loads[i]);
    printf("\n");
}

int main(void)
{
    plan_text("net A as text", "T\t2\t3\t10\nD\t20\nW\t0\t4\t5\t1\nS\t1\t6\t7\t0\t8\t1000\n");
    plan_tables();
    list_row(1);
    list_row(3);
    loads_of_row(1);
    plan_text("a row that hangs on itself", "D\t20\nS\t1\t6\t7\t0\t8\t1000\n");
    return 0;
}
