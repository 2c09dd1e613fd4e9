/*
 * The stack that each call takes, as a Markdown table: the greatest over the families of rotas in a file.
 *
 *     stack ROTAS
 *
 * A call runs on a stack of its own that was filled with one byte. Afterwards the lowest byte that differs shows how far the call
 * went. It runs twice, over complementary bytes, so that no byte that is written stays unseen. Counted is what lies below the
 * caller's frame: arguments that are passed on the stack, the return address, and all below. The program is linked with its symbols
 * bound at the start: else the first call of memcpy or memset would count the dynamic linker's search too.
 */
#define _GNU_SOURCE
#include <alloca.h>
#include <stdbool.h>
#include <stdio.h>
#include <stdlib.h>
#include <string.h>
#include <sys/mman.h>
#include <ucontext.h>

#include "rota.h"
#include "rotas.h"

/* STEPS: plans of a rota that next_plan and list_plan go on from. SAMPLE: rotas of a family that are counted, which takes long. */
enum { PAGE = 4096, STACK = 64 * 1024, STEPS = 20, SAMPLE = 4, VEHICLES = 500, KNOWN = 5000, SLACK = 64 };

static unsigned char *stack;          /* STACK bytes above a page that nobody may touch */
static unsigned char *volatile frame; /* the lowest place of the caller's frame */

/* What the calls take and give. */
static size_t n, file_bytes, item, slot;
static uint64_t opens[64], callouts[64], usable[64], read_opens[64], read_callouts[64];
static uint64_t tally[1 << ROTA_MOST_COUNTED], number;
static uint8_t file[ROTA_FILE_BYTES], buffer[64], page[ROTA_SHEET_BYTES];
static rota_plan given;
static rota_lister lister;
static volatile uint32_t code;

#define TABLES n, opens, n, callouts, n
#define TALLY tally, sizeof tally / sizeof tally[0]

/* Each caller is one function. What alloca gives lies lowest in its frame, but for the arguments that a call passes on the stack. */
#define CALLER(name, call) \
    static void name(void) \
    { \
        frame = alloca(1); \
        code = call; \
    }

/* Two functions whose stack is known, to try the measuring itself. */
__attribute__((noipa)) static uint32_t take_nothing(void)
{
    return 0;
}

__attribute__((noipa)) static uint32_t take_known(void)
{
    volatile unsigned char bytes[KNOWN];
    bytes[0] = 1;
    return bytes[0];
}

CALLER(nothing, take_nothing())
CALLER(known, take_known())
CALLER(first_plan, rota_first_plan(TABLES).code)
CALLER(next_plan, rota_next_plan(TABLES, given).code)
CALLER(list_plan, rota_list_plan(&lister, TABLES).code)
CALLER(fewest_callouts, rota_fewest_callouts(TABLES, UINT32_MAX).code)
CALLER(cell_plan, rota_cell_plan(TABLES, item, slot).code)
CALLER(plan_sheet, rota_plan_sheet(TABLES, given, page, sizeof page))
CALLER(usable_slots, rota_usable_slots(TABLES, usable, 64))
CALLER(count_plans, rota_count_plans(TABLES, TALLY).code)
CALLER(grade, rota_grade(TABLES, TALLY).code)
CALLER(monthly_price, rota_monthly_price(TABLES, VEHICLES, TALLY).code)
CALLER(count_plans_untallied, rota_count_plans_untallied(TABLES).code)
CALLER(grade_untallied, rota_grade_untallied(TABLES).code)
CALLER(monthly_price_untallied, rota_monthly_price_untallied(TABLES, VEHICLES).code)
CALLER(plan_at, rota_plan_at(TABLES, number, TALLY).code)
CALLER(plan_number, rota_plan_number(TABLES, given, TALLY).code)
CALLER(read_file, rota_read_file(file, file_bytes, read_opens, 64, read_callouts, 64).code)
CALLER(write_file, rota_write_file(TABLES, file, sizeof file).code)
CALLER(file_first_plan, rota_file_first_plan(file, file_bytes, buffer, 64))
CALLER(file_next_plan, rota_file_next_plan(file, file_bytes, buffer, 64))
CALLER(file_fewest_callouts, rota_file_fewest_callouts(file, file_bytes, buffer, 64, UINT32_MAX))

static void require(bool holds, const char *what)
{
    if (!holds) {
        fprintf(stderr, "stack: not so: %s\n", what);
        exit(1);
    }
}

/* How far a call goes below its caller's frame, over a stack filled with that byte. */
static size_t depth_over(unsigned char byte, void (*caller)(void))
{
    static ucontext_t home, there;
    size_t lowest = 0;
    memset(stack, byte, STACK);
    require(getcontext(&there) == 0, "a context is given");
    there.uc_stack.ss_sp = stack;
    there.uc_stack.ss_size = STACK;
    there.uc_link = &home;
    makecontext(&there, caller, 0);
    require(swapcontext(&home, &there) == 0, "the caller has run");
    require(frame > stack && frame < stack + STACK, "the caller's frame is on the stack");
    while (stack[lowest] == byte) {
        lowest++;
    }
    require(lowest > 0, "the stack is large enough");
    return (size_t)(frame - stack) - lowest;
}

static void try_measuring(void)
{
    const size_t least = depth_over(0x5A, nothing), most = depth_over(0x5A, known);
    require(least <= SLACK, "an empty function takes next to nothing");
    require(most >= KNOWN && most <= KNOWN + SLACK, "a known stack is measured");
}

/* One call, how many bytes it took, and of which family. */
typedef struct {
    const char *name;
    void (*caller)(void);
    size_t most;
    const bench_family *family;
} row;

static row rows[] = {
    {"first_plan", first_plan, 0, NULL},
    {"next_plan", next_plan, 0, NULL},
    {"list_plan", list_plan, 0, NULL},
    {"fewest_callouts", fewest_callouts, 0, NULL},
    {"cell_plan", cell_plan, 0, NULL},
    {"plan_sheet", plan_sheet, 0, NULL},
    {"usable_slots", usable_slots, 0, NULL},
    {"count_plans", count_plans, 0, NULL},
    {"grade", grade, 0, NULL},
    {"monthly_price", monthly_price, 0, NULL},
    {"count_plans_untallied", count_plans_untallied, 0, NULL},
    {"grade_untallied", grade_untallied, 0, NULL},
    {"monthly_price_untallied", monthly_price_untallied, 0, NULL},
    {"plan_at", plan_at, 0, NULL},
    {"plan_number", plan_number, 0, NULL},
    {"read_file", read_file, 0, NULL},
    {"write_file", write_file, 0, NULL},
    {"file_first_plan", file_first_plan, 0, NULL},
    {"file_next_plan", file_next_plan, 0, NULL},
    {"file_fewest_callouts", file_fewest_callouts, 0, NULL}
};

/* Makes the call twice from the same state, keeps the greater depth, and leaves the state as the call left it. */
static uint32_t measure(void (*caller)(void), const bench_family *family)
{
    const rota_lister before = lister;
    uint8_t held[64];
    row *r = rows;
    size_t one, other;
    memcpy(held, buffer, sizeof held);
    one = depth_over(0x5A, caller);
    lister = before;
    memcpy(buffer, held, sizeof held);
    other = depth_over(0xA5, caller);
    while (r->caller != caller) {
        r++;
    }
    one = one > other ? one : other;
    if (one > r->most) {
        r->most = one;
        r->family = family;
    }
    return code;
}

/* Two cells of each item: its lowest and its highest open slot. */
static void measure_cells(const bench_family *family)
{
    for (item = 0; item < n; item++) {
        const uint64_t word = opens[item];
        require(word != 0, "every item has an open slot");
        slot = (size_t)__builtin_ctzll(word);
        require(measure(cell_plan, family) == ROTA_DONE, "a cell's plan is given");
        slot = 63 - (size_t)__builtin_clzll(word);
        require(measure(cell_plan, family) == ROTA_DONE, "a cell's plan is given");
    }
}

static void measure_plans(const bench_family *family)
{
    const uint32_t none = measure(first_plan, family);
    require(none == ROTA_DONE || none == ROTA_NO_PLAN, "there is a plan or none");
    require(measure(fewest_callouts, family) == none, "the fewest callouts are found with a plan");
    measure_cells(family);
    require(measure(usable_slots, family) == ROTA_DONE, "the usable slots are given");
    lister.started = false;
    require(measure(list_plan, family) == none, "the lister begins");
    require(measure(write_file, family) == ROTA_DONE, "the rota is written");
    file_bytes = (size_t)rota_write_file(TABLES, file, sizeof file).bytes;
    require(measure(read_file, family) == ROTA_DONE, "the rota is read");
    require(memcmp(opens, read_opens, 8 * n) == 0 && memcmp(callouts, read_callouts, 8 * n) == 0, "the rota is the same");
    require(measure(file_first_plan, family) == none, "the file has a plan or none");
    require(measure(file_fewest_callouts, family) == none, "the file's fewest callouts are found with a plan");
    if (none != ROTA_DONE) {
        return;
    }
    memcpy(buffer, lister.plan.slots, sizeof buffer);
    for (int step = 0; step < STEPS; step++) {
        uint32_t end;
        given = lister.plan;
        require(measure(plan_sheet, family) == ROTA_DONE, "the plan has a sheet");
        end = measure(next_plan, family);
        require(end == ROTA_DONE || end == ROTA_NO_FURTHER_PLAN, "a plan follows or none");
        require(measure(list_plan, family) == end, "the lister goes on");
        require(measure(file_next_plan, family) == end, "the file's next plan is found");
        if (end != ROTA_DONE) {
            return;
        }
    }
}

static void measure_counts(const bench_family *family)
{
    const uint32_t none = rota_first_plan(TABLES).code;
    require(measure(count_plans, family) == ROTA_DONE, "the plans are counted");
    require(measure(grade, family) == none, "the grade is given with a plan");
    require(measure(monthly_price, family) == none, "the price is given with a plan");
    require(measure(count_plans_untallied, family) == ROTA_DONE, "the plans are counted without a tally");
    require(measure(grade_untallied, family) == none, "the grade is given with a plan");
    require(measure(monthly_price_untallied, family) == none, "the price is given with a plan");
}

/* The plan in the middle of the list, and its number. */
static void measure_numbers(const bench_family *family)
{
    const uint64_t count = rota_count_plans(TABLES, TALLY).count;
    number = count / 2;
    given = rota_plan_at(TABLES, number, TALLY).plan;
    require(measure(plan_at, family) == (count > 0 ? ROTA_DONE : ROTA_NO_SUCH_PLAN), "a number below the count has a plan");
    require(measure(plan_number, family) == (count > 0 ? ROTA_DONE : ROTA_NOT_A_PLAN), "this plan has a number");
}

static void measure_family(const bench_family *family)
{
    n = family->n;
    for (size_t r = 0; r < family->count; r++) {
        memcpy(opens, family->rotas[r].opens, sizeof opens);
        memcpy(callouts, family->rotas[r].callouts, sizeof callouts);
        if (n == ROTA_MOST_ITEMS) {
            measure_plans(family);
        } else if (n == ROTA_MOST_COUNTED && r < SAMPLE) {
            measure_counts(family);
            measure_numbers(family);
        }
    }
}

int main(int argc, char **argv)
{
    bench_rotas all;
    unsigned char *space = mmap(NULL, PAGE + STACK, PROT_READ | PROT_WRITE, MAP_PRIVATE | MAP_ANONYMOUS, -1, 0);
    require(argc == 2, "the argument is a file of rotas");
    require(space != MAP_FAILED && mprotect(space, PAGE, PROT_NONE) == 0, "there is memory for a stack");
    stack = space + PAGE;
    try_measuring();
    all = bench_read(argv[1]);
    for (size_t f = 0; f < all.count; f++) {
        measure_family(&all.families[f]);
    }
    printf("### Stack, bytes\n\n| call | n | bytes | of the family |\n|---|--:|--:|---|\n");
    for (size_t r = 0; r < sizeof rows / sizeof rows[0]; r++) {
        require(rows[r].family != NULL, "every call was made");
        printf("| `%s` | %zu | %zu | %s |\n", rows[r].name, rows[r].family->n, rows[r].most, rows[r].family->name);
    }
    return 0;
}
