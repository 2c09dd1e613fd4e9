/*
 * Download rotas and their complete plans. docs/RULES.md has all the rules, in plain words.
 *
 * A rota has n items and n slots, each numbered from 0; n is 1 to 64. It stands in two tables of n words, one word an item.
 * Bit j of an item's open word is set if the item may use slot j. The same bit of its callout word is set if that cell is a
 * callout; a callout cell must be open. A complete plan gives each item one open slot, no slot twice. Plans are ordered as in
 * a dictionary: by item 0's slot, then item 1's.
 *
 * What a call is given may be anything: every number, every byte and word of a buffer, every length. The call ends, and either
 * does its work or refuses with a number of enum rota_code. If several refusals fit, the one that the call tests first is given;
 * each is tested over the whole input before the next. A refused call writes to nothing that was lent: every buffer and every
 * lister is as it was. In its answer the plan is blank (64 bytes of 255) and every other number is 0, but for what ROTA_NO_PLAN
 * and ROTA_OVER_CAP bring with them.
 *
 * A buffer is passed as a pointer and its length in elements. An output may be longer than what is written, and its further
 * elements are kept. It need not be filled before the call, but for a lister and the plan buffer of rota_file_next_plan.
 *
 * The caller must see to four things, for a refused call too. Without them the call is undefined and no promise of this header
 * holds, neither of the answer nor of the buffers.
 *   - A pointer is valid for its length and aligned for its element type. It may be null with length 0 only, the pointer to a
 *     lister never.
 *   - An output overlaps nothing else that the call is given, neither another output nor an input. A lister is an output. The
 *     proofs suppose that outputs stand apart. Inputs may overlap each other, and may be the same.
 *   - The field started of a lister is true or false. A byte with another pattern, as memory that was never set may hold, is
 *     neither.
 *   - While the call runs, nobody else writes to its inputs, and nobody else reads or writes its outputs.
 *
 * Nothing is kept between calls but what a lister holds. Calls may run at the same time, on any threads, as long as no output of
 * one is in use by another. A call allocates nothing, makes no system call, uses no floating point and leaves errno alone. It
 * needs less than 16 KiB of stack.
 *
 * The archive is made for x86-64 Linux, with the System V calling convention, and needs memcpy and memset of the C library. A
 * rota file has the same bytes whatever the byte order of the machine. The padding bytes of an answer may be anything: compare
 * fields, not memory.
 *
 * Tests, in order, by what a call is given:
 *   TABLES  ROTA_BAD_N, ROTA_BAD_TABLE_LENGTH, ROTA_SLOT_OUTSIDE, ROTA_CALLOUT_NOT_OPEN
 *   FILE    ROTA_BAD_FILE_LENGTH, ROTA_BAD_CHECK, ROTA_BAD_LAYOUT, ROTA_SLOT_OUTSIDE, ROTA_CALLOUT_NOT_OPEN
 */
#ifndef ROTA_H
#define ROTA_H

#include <stdbool.h>
#include <stddef.h>
#include <stdint.h>

/* The version, in numbers and as a text made of them: "3.1.0". */
#define ROTA_VERSION_MAJOR 3
#define ROTA_VERSION_MINOR 1
#define ROTA_VERSION_PATCH 0
#define ROTA_VERSION ROTA_VERSION_OF(ROTA_VERSION_MAJOR, ROTA_VERSION_MINOR, ROTA_VERSION_PATCH)
#define ROTA_VERSION_OF(major, minor, patch) ROTA_VERSION_TEXT(major, minor, patch)
#define ROTA_VERSION_TEXT(major, minor, patch) #major "." #minor "." #patch

#ifdef __cplusplus
extern "C" {
#endif

/* What a call returns: ROTA_DONE or the refusal. */
enum rota_code {
    ROTA_DONE = 0,
    ROTA_BAD_N = 1,             /* n is 0 or above 64 */
    ROTA_BAD_TABLE_LENGTH = 2,  /* the open or callout table has other than n words */
    ROTA_SLOT_OUTSIDE = 3,      /* an open bit at slot n or above */
    ROTA_CALLOUT_NOT_OPEN = 4,  /* a callout bit where the cell is not open */
    ROTA_TOO_MANY_TO_COUNT = 5, /* count, grade, price or plan number with n above 20 */
    ROTA_TALLY_TOO_SHORT = 6,   /* the tally has fewer than 2 to the power n words */
    ROTA_BAD_FLEET = 7,         /* vehicles are 0 or above 10,000 */
    ROTA_NOT_A_PLAN = 8,        /* the given plan, or that of a started lister, is no complete plan of this rota */
    ROTA_NO_PLAN = 9,           /* no complete plan exists; the answer names the short items */
    ROTA_NO_FURTHER_PLAN = 10,  /* no complete plan follows the given one */
    ROTA_OVER_CAP = 11,         /* the fewest callouts exceed the cap; the answer has the fewest number */
    ROTA_BAD_FILE_LENGTH = 12,  /* the file has other than 512, 1,024 or 1,536 bytes */
    ROTA_BAD_CHECK = 13,        /* a block's check is wrong */
    ROTA_BAD_LAYOUT = 14,       /* a header or unused place, n, or the number of blocks is not as laid out */
    ROTA_OUTPUT_TOO_SHORT = 15, /* an output other than the tally is shorter than what is to be written */
    ROTA_NO_SUCH_PLAN = 16      /* the plan number is not below the number of complete plans */
};

/* What a number of enum rota_code says, in plain words; any other number has a text too. */
static inline const char *rota_code_text(uint32_t code)
{
    static const char *const texts[] = {
        "done",
        "the rota does not have 1 to 64 items",
        "a table does not have one word for each item",
        "an item is open for a slot that the rota does not have",
        "a callout stands where the slot is not open to the item",
        "only rotas of up to 20 items are counted, graded and priced",
        "the tally is too short to count the plans",
        "the fleet does not have 1 to 10,000 vehicles",
        "the given plan is no complete plan of this rota",
        "there is no complete plan",
        "no complete plan follows the given one",
        "even the fewest callouts are more than the cap",
        "the file does not have 512, 1,024 or 1,536 bytes",
        "the check of a block is wrong, so the file is damaged",
        "the file is not laid out as a rota file",
        "there is too little room for the result",
        "no complete plan has this plan number"
    };
    return code < sizeof texts / sizeof texts[0] ? texts[code] : "the library has no such number";
}

/* Sizes that the calls, the file and the plan sheet are made of. */
enum {
    ROTA_MOST_ITEMS = 64,    /* items, slots, and bytes of a plan */
    ROTA_MOST_COUNTED = 20,  /* items of a rota that is counted, graded or priced, or has plan numbers */
    ROTA_BLOCK_BYTES = 512,  /* bytes of a block of a rota file */
    ROTA_FILE_BYTES = 1536,  /* bytes of the longest rota file */
    ROTA_LINE_BYTES = 32,    /* bytes of a line of a plan sheet */
    ROTA_SHEET_BYTES = 2080  /* bytes of the longest plan sheet */
};

/*
 * Byte i is item i's slot; bytes from n on are 0. The blank plan, 64 bytes of 255, is given by a refused call, and by
 * rota_cell_plan if no plan holds the cell.
 */
typedef struct {
    uint8_t slots[64];
} rota_plan;

/*
 * With ROTA_NO_PLAN, items is the set of short items (bit i for item i) and shortage says by how many they are short: of
 * all sets of items, those whose size exceeds the number of slots open to any of them by most, and of these the
 * smallest. In every other answer both are 0. callouts is 0 but in answers of rota_fewest_callouts.
 */
typedef struct {
    uint32_t code;
    uint32_t shortage;
    uint64_t items;
    uint32_t callouts;
    rota_plan plan;
} rota_plan_answer;

/* Fresh while started is false, with any plan in it. The library alone writes it afterwards. */
typedef struct {
    bool started;
    rota_plan plan;
} rota_lister;

/* A fresh lister: rota_lister lister = ROTA_LISTER_FRESH; */
#define ROTA_LISTER_FRESH {false, {{0}}}

typedef struct {
    uint32_t code;
    uint64_t count; /* the number of complete plans */
} rota_count_answer;

typedef struct {
    uint32_t code;
    uint64_t number; /* the number of complete plans before the given one */
} rota_number_answer;

typedef struct {
    uint32_t code;
    uint32_t grade; /* 1 to 5 */
    uint32_t shortage;
    uint64_t items;
} rota_grade_answer;

typedef struct {
    uint32_t code;
    uint32_t shortage;
    uint64_t items;
    uint64_t cents; /* the monthly price */
} rota_price_answer;

typedef struct {
    uint32_t code;
    uint64_t n; /* the number of items */
} rota_read_answer;

typedef struct {
    uint32_t code;
    uint64_t bytes; /* the number of bytes written */
} rota_write_answer;

/* Calls on tables. They read opens and callouts only; the two may be the same table. */

/* The first complete plan. Tests TABLES, ROTA_NO_PLAN. */
rota_plan_answer rota_first_plan(size_t n, const uint64_t *opens, size_t opens_len,
                                 const uint64_t *callouts, size_t callouts_len);

/*
 * The first complete plan after the given one. Tests TABLES, ROTA_NOT_A_PLAN, ROTA_NO_FURTHER_PLAN. A given plan must be
 * one of this rota, with 0 from byte n on; over a rota without a plan every given one is ROTA_NOT_A_PLAN.
 */
rota_plan_answer rota_next_plan(size_t n, const uint64_t *opens, size_t opens_len,
                                const uint64_t *callouts, size_t callouts_len, rota_plan given);

/*
 * Moves a lister on: a fresh one gives the first plan, a started one the plan after the one it holds. On success started
 * is true and the plan given is stored; on refusal the lister is unchanged, so that at the end each further call gives
 * ROTA_NO_FURTHER_PLAN. Fresh it tests TABLES, ROTA_NO_PLAN; started it tests TABLES, ROTA_NOT_A_PLAN,
 * ROTA_NO_FURTHER_PLAN. Calls over one rota give each of its plans once, in order.
 */
rota_plan_answer rota_list_plan(rota_lister *lister, size_t n, const uint64_t *opens, size_t opens_len,
                                const uint64_t *callouts, size_t callouts_len);

/*
 * The first of the complete plans with the fewest callout cells; callouts is that number. Tests TABLES, ROTA_NO_PLAN,
 * ROTA_OVER_CAP. With ROTA_OVER_CAP the plan is blank and callouts is the fewest number; with ROTA_NO_PLAN it is 0.
 */
rota_plan_answer rota_fewest_callouts(size_t n, const uint64_t *opens, size_t opens_len,
                                      const uint64_t *callouts, size_t callouts_len, uint32_t cap);

/*
 * The first complete plan that gives this item this slot; the blank plan if none does, and this is no refusal. item and
 * slot may be any numbers: no plan holds a cell with one of n or above. With ROTA_DONE, slots[0] is below n if a plan
 * holds the cell, else 255. Tests TABLES.
 */
rota_plan_answer rota_cell_plan(size_t n, const uint64_t *opens, size_t opens_len,
                                const uint64_t *callouts, size_t callouts_len, size_t item, size_t slot);

/*
 * The sheet of a given plan, for the wall of a yard: on success the first (n + 1) * 32 bytes of page are written, n + 1 lines
 * of 32 bytes each. A line has spaces but for columns 0 and 1, 6 and 7, 12, and a line feed in column 31. The heading has
 * "IT", "SL" and "C" there; then item i's line has its number and its slot, both right-aligned, and "C" if its cell in the
 * plan is a callout, else a space. No byte of 0 ends the sheet. Tests TABLES, ROTA_OUTPUT_TOO_SHORT (fewer than
 * (n + 1) * 32 bytes), ROTA_NOT_A_PLAN. A page of ROTA_SHEET_BYTES is always long enough.
 */
uint32_t rota_plan_sheet(size_t n, const uint64_t *opens, size_t opens_len,
                         const uint64_t *callouts, size_t callouts_len, rota_plan given,
                         uint8_t *page, size_t page_len);

/*
 * The usable table: on success the first n words of usable are written; bit j of word i is set if some complete plan
 * gives item i slot j. Without a plan they are 0, and this is no refusal. Tests TABLES, ROTA_OUTPUT_TOO_SHORT (fewer
 * than n words).
 */
uint32_t rota_usable_slots(size_t n, const uint64_t *opens, size_t opens_len,
                           const uint64_t *callouts, size_t callouts_len, uint64_t *usable, size_t usable_len);

/*
 * The number of complete plans; 0 is a success. On success the first 2 to the power n words of the tally are written:
 * word S holds the number of ways to give the slots of S, all of them, to the first items, as many as S has bits. Tests
 * TABLES, ROTA_TOO_MANY_TO_COUNT, ROTA_TALLY_TOO_SHORT.
 */
rota_count_answer rota_count_plans(size_t n, const uint64_t *opens, size_t opens_len,
                                   const uint64_t *callouts, size_t callouts_len, uint64_t *tally, size_t tally_len);

/*
 * The grade: 1 with one complete plan; else 2 if some item is brittle, which means that it has just one usable slot
 * (rota_usable_slots), however many are open to it; else 3 with up to 23 plans, 4 with up to 999, 5 with more. On success the
 * tally is left as by rota_count_plans, and with ROTA_NO_PLAN as it was. Tests TABLES, ROTA_TOO_MANY_TO_COUNT,
 * ROTA_TALLY_TOO_SHORT, ROTA_NO_PLAN.
 */
rota_grade_answer rota_grade(size_t n, const uint64_t *opens, size_t opens_len,
                             const uint64_t *callouts, size_t callouts_len, uint64_t *tally, size_t tally_len);

/*
 * The monthly price in cents for a fleet of 1 to 10,000 vehicles. On success the tally is left as by rota_count_plans,
 * and with ROTA_NO_PLAN as it was. Tests TABLES, ROTA_TOO_MANY_TO_COUNT, ROTA_TALLY_TOO_SHORT, ROTA_BAD_FLEET,
 * ROTA_NO_PLAN.
 */
rota_price_answer rota_monthly_price(size_t n, const uint64_t *opens, size_t opens_len,
                                     const uint64_t *callouts, size_t callouts_len,
                                     uint64_t vehicles, uint64_t *tally, size_t tally_len);

/*
 * The number of complete plans without a tally: nothing is lent and nothing written. The answer is that of rota_count_plans
 * with a tally long enough; 0 is a success. The time doubles with each item, as with a tally. Tests TABLES,
 * ROTA_TOO_MANY_TO_COUNT.
 */
rota_count_answer rota_count_plans_untallied(size_t n, const uint64_t *opens, size_t opens_len,
                                             const uint64_t *callouts, size_t callouts_len);

/*
 * The grade without a tally. The answer is that of rota_grade with a tally long enough; with ROTA_NO_PLAN it has the short
 * items and the shortage. Tests TABLES, ROTA_TOO_MANY_TO_COUNT, ROTA_NO_PLAN.
 */
rota_grade_answer rota_grade_untallied(size_t n, const uint64_t *opens, size_t opens_len,
                                       const uint64_t *callouts, size_t callouts_len);

/*
 * The monthly price in cents without a tally, for a fleet of 1 to 10,000 vehicles. The answer is that of rota_monthly_price
 * with a tally long enough; with ROTA_NO_PLAN it has the short items and the shortage. Tests TABLES, ROTA_TOO_MANY_TO_COUNT,
 * ROTA_BAD_FLEET, ROTA_NO_PLAN.
 */
rota_price_answer rota_monthly_price_untallied(size_t n, const uint64_t *opens, size_t opens_len,
                                               const uint64_t *callouts, size_t callouts_len, uint64_t vehicles);

/*
 * The complete plan with plan number k, which counts from 0: k complete plans come before it, and a fresh lister gives it at
 * call k + 1. On success the first 2 to the power n words of the tally are written: word S holds the number of ways to give the
 * slots of S, all of them, to the last items, as many as S has bits (in rota_count_plans to the first ones). Tests TABLES,
 * ROTA_TOO_MANY_TO_COUNT, ROTA_TALLY_TOO_SHORT, ROTA_NO_SUCH_PLAN; over a rota without a plan every k is ROTA_NO_SUCH_PLAN.
 */
rota_plan_answer rota_plan_at(size_t n, const uint64_t *opens, size_t opens_len,
                              const uint64_t *callouts, size_t callouts_len,
                              uint64_t k, uint64_t *tally, size_t tally_len);

/*
 * The plan number of a given plan: how many complete plans come before it. rota_plan_at gives the plan back for it. On success
 * the tally is left as by rota_plan_at. Tests TABLES, ROTA_TOO_MANY_TO_COUNT, ROTA_TALLY_TOO_SHORT, ROTA_NOT_A_PLAN.
 */
rota_number_answer rota_plan_number(size_t n, const uint64_t *opens, size_t opens_len,
                                    const uint64_t *callouts, size_t callouts_len,
                                    rota_plan given, uint64_t *tally, size_t tally_len);

/*
 * Reads a rota file. On success the first n words of opens and of callouts are written. Tests FILE,
 * ROTA_OUTPUT_TOO_SHORT (either table has fewer than n words). Tables of 64 words are always long enough.
 */
rota_read_answer rota_read_file(const uint8_t *file, size_t file_len,
                                uint64_t *opens, size_t opens_len, uint64_t *callouts, size_t callouts_len);

/*
 * Writes a rota file: 512 bytes up to 31 items, 1,024 up to 62, 1,536 up to 64. Tests TABLES, ROTA_OUTPUT_TOO_SHORT. A
 * file of ROTA_FILE_BYTES is always long enough.
 */
rota_write_answer rota_write_file(size_t n, const uint64_t *opens, size_t opens_len,
                                  const uint64_t *callouts, size_t callouts_len, uint8_t *file, size_t file_len);

/*
 * Calls on a file and a plan buffer of at least 64 bytes. They return ROTA_DONE or the refusal, and write the buffer's
 * first 64 bytes on success only.
 */

/* The first complete plan. Tests FILE, ROTA_OUTPUT_TOO_SHORT, ROTA_NO_PLAN. */
uint32_t rota_file_first_plan(const uint8_t *file, size_t file_len, uint8_t *plan, size_t plan_len);

/*
 * The first complete plan after the one in the buffer. Tests FILE, ROTA_OUTPUT_TOO_SHORT, ROTA_NOT_A_PLAN,
 * ROTA_NO_FURTHER_PLAN.
 */
uint32_t rota_file_next_plan(const uint8_t *file, size_t file_len, uint8_t *plan, size_t plan_len);

/* The first plan with the fewest callouts. Tests FILE, ROTA_OUTPUT_TOO_SHORT, ROTA_NO_PLAN, ROTA_OVER_CAP. */
uint32_t rota_file_fewest_callouts(const uint8_t *file, size_t file_len, uint8_t *plan, size_t plan_len, uint32_t cap);

#ifdef __cplusplus
}
#endif

#endif
