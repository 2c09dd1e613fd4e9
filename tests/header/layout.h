/* The layout of every struct on x86-64, worked out by hand from the declarations. */
#ifndef LAYOUT_H
#define LAYOUT_H

#include "rota.h"

#include <assert.h>
#include <stddef.h>

/* C99 has no static_assert. Here an array has -1 elements if the condition does not hold. */
#if !defined(__cplusplus) && __STDC_VERSION__ < 201112L
#undef static_assert
#define static_assert(condition, text) extern const char layout[(condition) ? 1 : -1]
#endif

#define SIZE(type, bytes) static_assert(sizeof(type) == (bytes), #type " has " #bytes " bytes")
#define FIELD(type, field, at, bytes)                                                   \
    static_assert(offsetof(type, field) == (at), #type "." #field " is at byte " #at);  \
    static_assert(sizeof(((type *)0)->field) == (bytes), #type "." #field " has " #bytes " bytes")

static_assert(sizeof(bool) == 1, "bool has 1 byte");
static_assert(sizeof(size_t) == 8, "size_t has 8 bytes");

SIZE(rota_plan, 64);
FIELD(rota_plan, slots, 0, 64);

/* Four bytes of padding at the end. */
SIZE(rota_plan_answer, 88);
FIELD(rota_plan_answer, code, 0, 4);
FIELD(rota_plan_answer, shortage, 4, 4);
FIELD(rota_plan_answer, items, 8, 8);
FIELD(rota_plan_answer, callouts, 16, 4);
FIELD(rota_plan_answer, plan, 20, 64);

SIZE(rota_lister, 65);
FIELD(rota_lister, started, 0, 1);
FIELD(rota_lister, plan, 1, 64);

/* Four bytes of padding after code. */
SIZE(rota_count_answer, 16);
FIELD(rota_count_answer, code, 0, 4);
FIELD(rota_count_answer, count, 8, 8);

/* Four bytes of padding after code. */
SIZE(rota_number_answer, 16);
FIELD(rota_number_answer, code, 0, 4);
FIELD(rota_number_answer, number, 8, 8);

/* Four bytes of padding after shortage. */
SIZE(rota_grade_answer, 24);
FIELD(rota_grade_answer, code, 0, 4);
FIELD(rota_grade_answer, grade, 4, 4);
FIELD(rota_grade_answer, shortage, 8, 4);
FIELD(rota_grade_answer, items, 16, 8);

SIZE(rota_price_answer, 24);
FIELD(rota_price_answer, code, 0, 4);
FIELD(rota_price_answer, shortage, 4, 4);
FIELD(rota_price_answer, items, 8, 8);
FIELD(rota_price_answer, cents, 16, 8);

/* Four bytes of padding after code. */
SIZE(rota_read_answer, 16);
FIELD(rota_read_answer, code, 0, 4);
FIELD(rota_read_answer, n, 8, 8);

/* Four bytes of padding after code. */
SIZE(rota_write_answer, 16);
FIELD(rota_write_answer, code, 0, 4);
FIELD(rota_write_answer, bytes, 8, 8);

static_assert(ROTA_DONE == 0 && ROTA_BAD_N == 1 && ROTA_BAD_TABLE_LENGTH == 2 && ROTA_SLOT_OUTSIDE == 3, "0 to 3");
static_assert(ROTA_CALLOUT_NOT_OPEN == 4 && ROTA_TOO_MANY_TO_COUNT == 5 && ROTA_TALLY_TOO_SHORT == 6, "4 to 6");
static_assert(ROTA_BAD_FLEET == 7 && ROTA_NOT_A_PLAN == 8 && ROTA_NO_PLAN == 9, "7 to 9");
static_assert(ROTA_NO_FURTHER_PLAN == 10 && ROTA_OVER_CAP == 11 && ROTA_BAD_FILE_LENGTH == 12, "10 to 12");
static_assert(ROTA_BAD_CHECK == 13 && ROTA_BAD_LAYOUT == 14 && ROTA_OUTPUT_TOO_SHORT == 15, "13 to 15");
static_assert(ROTA_NO_SUCH_PLAN == 16, "16");

static_assert(ROTA_MOST_ITEMS == 64 && ROTA_MOST_COUNTED == 20, "items");
static_assert(ROTA_BLOCK_BYTES == 512 && ROTA_FILE_BYTES == 1536, "bytes");
static_assert(ROTA_LINE_BYTES == 32 && ROTA_SHEET_BYTES == 2080, "bytes of a sheet");

#endif
