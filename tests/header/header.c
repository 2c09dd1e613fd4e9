/*
 * Every call once or more on T, with the results that docs/RULES.md gives. This text and the other parts of the test are compiled
 * as C and as C++, and each part includes the header for itself.
 */
#include "rota.h"

#include "layout.h"
#include "parts.h"

#include <stdio.h>
#include <stdlib.h>
#include <string.h>

const uint64_t OPENS[3] = {3, 7, 6};
const uint64_t CALLOUTS[3] = {1, 0, 4};

void expect(bool holds, const char *what, const char *file, int line)
{
    if (!holds) {
        fprintf(stderr, "%s:%d: not so: %s\n", file, line, what);
        exit(1);
    }
}

rota_plan plan(uint8_t a, uint8_t b, uint8_t c)
{
    rota_plan p = {{a, b, c}};
    return p;
}

bool same(rota_plan a, rota_plan b)
{
    return memcmp(&a, &b, sizeof a) == 0;
}

rota_plan blank(void)
{
    rota_plan p;
    memset(&p, 255, sizeof p);
    return p;
}

bool gives(rota_plan_answer a, uint32_t code, rota_plan p, uint32_t callouts)
{
    return a.code == code && same(a.plan, p) && a.callouts == callouts && a.items == 0 && a.shortage == 0;
}

static void plans(void)
{
    rota_lister lister = ROTA_LISTER_FRESH;
    uint64_t short_opens[4] = {1, 1, 2, 14}, none[4] = {0, 0, 0, 0};
    rota_plan_answer a;

    EXPECT(gives(rota_first_plan(T), ROTA_DONE, plan(0, 1, 2), 0));
    EXPECT(gives(rota_next_plan(T, plan(0, 1, 2)), ROTA_DONE, plan(0, 2, 1), 0));
    EXPECT(gives(rota_next_plan(T, plan(1, 0, 2)), ROTA_NO_FURTHER_PLAN, blank(), 0));
    EXPECT(gives(rota_next_plan(T, plan(2, 1, 0)), ROTA_NOT_A_PLAN, blank(), 0));
    EXPECT(gives(rota_fewest_callouts(T, 1), ROTA_DONE, plan(0, 2, 1), 1));
    EXPECT(gives(rota_fewest_callouts(T, 0), ROTA_OVER_CAP, blank(), 1));

    EXPECT(!lister.started && same(lister.plan, plan(0, 0, 0)));
    EXPECT(gives(rota_list_plan(&lister, 4, short_opens, 4, short_opens, 3), ROTA_BAD_TABLE_LENGTH, blank(), 0));
    EXPECT(!lister.started && same(lister.plan, plan(0, 0, 0)));
    EXPECT(gives(rota_list_plan(&lister, T), ROTA_DONE, plan(0, 1, 2), 0));
    EXPECT(lister.started && same(lister.plan, plan(0, 1, 2)));
    EXPECT(gives(rota_list_plan(&lister, T), ROTA_DONE, plan(0, 2, 1), 0));
    EXPECT(gives(rota_list_plan(&lister, T), ROTA_DONE, plan(1, 0, 2), 0));
    EXPECT(gives(rota_list_plan(&lister, T), ROTA_NO_FURTHER_PLAN, blank(), 0));
    EXPECT(lister.started && same(lister.plan, plan(1, 0, 2)));
    lister.started = false;
    EXPECT(gives(rota_list_plan(&lister, T), ROTA_DONE, plan(0, 1, 2), 0));

    a = rota_first_plan(4, short_opens, 4, none, 4);
    EXPECT(a.code == ROTA_NO_PLAN && same(a.plan, blank()) && a.items == 3 && a.shortage == 1 && a.callouts == 0);
    EXPECT(gives(rota_first_plan(0, OPENS, 3, CALLOUTS, 3), ROTA_BAD_N, blank(), 0));
    EXPECT(gives(rota_first_plan(2, OPENS, 3, CALLOUTS, 3), ROTA_BAD_TABLE_LENGTH, blank(), 0));
    EXPECT(gives(rota_first_plan(2, OPENS, 2, CALLOUTS, 2), ROTA_SLOT_OUTSIDE, blank(), 0));
    EXPECT(gives(rota_first_plan(3, CALLOUTS, 3, OPENS, 3), ROTA_CALLOUT_NOT_OPEN, blank(), 0));
}

/* The plan of a cell; without one the answer is the blank plan, and no refusal. */
static void cells(void)
{
    uint64_t short_opens[4] = {1, 1, 2, 14}, none[4] = {0, 0, 0, 0};

    EXPECT(gives(rota_cell_plan(T, 0, 0), ROTA_DONE, plan(0, 1, 2), 0));
    EXPECT(gives(rota_cell_plan(T, 2, 2), ROTA_DONE, plan(0, 1, 2), 0));
    EXPECT(gives(rota_cell_plan(T, 2, 1), ROTA_DONE, plan(0, 2, 1), 0));
    EXPECT(gives(rota_cell_plan(T, 1, 0), ROTA_DONE, plan(1, 0, 2), 0));
    EXPECT(gives(rota_cell_plan(T, 0, 2), ROTA_DONE, blank(), 0));
    EXPECT(gives(rota_cell_plan(T, 3, 0), ROTA_DONE, blank(), 0));
    EXPECT(gives(rota_cell_plan(T, 0, 3), ROTA_DONE, blank(), 0));
    EXPECT(gives(rota_cell_plan(T, 64, 0), ROTA_DONE, blank(), 0));
    EXPECT(gives(rota_cell_plan(T, 0, 64), ROTA_DONE, blank(), 0));
    EXPECT(gives(rota_cell_plan(T, SIZE_MAX, 1), ROTA_DONE, blank(), 0));
    EXPECT(gives(rota_cell_plan(T, 1, SIZE_MAX), ROTA_DONE, blank(), 0));
    EXPECT(gives(rota_cell_plan(4, short_opens, 4, none, 4, 3, 3), ROTA_DONE, blank(), 0));
    EXPECT(gives(rota_cell_plan(0, OPENS, 3, CALLOUTS, 3, 0, 0), ROTA_BAD_N, blank(), 0));
    EXPECT(gives(rota_cell_plan(2, OPENS, 3, CALLOUTS, 3, 0, 0), ROTA_BAD_TABLE_LENGTH, blank(), 0));
    EXPECT(gives(rota_cell_plan(2, OPENS, 2, CALLOUTS, 2, 2, 2), ROTA_SLOT_OUTSIDE, blank(), 0));
    EXPECT(gives(rota_cell_plan(3, CALLOUTS, 3, OPENS, 3, 3, 3), ROTA_CALLOUT_NOT_OPEN, blank(), 0));
}

/* Whether bytes are as they were lent. */
static bool kept(const uint8_t *bytes, size_t length)
{
    for (size_t i = 0; i < length; i++) {
        if (bytes[i] != 77) {
            return false;
        }
    }
    return true;
}

/* Whether the page, lent with a byte before and behind it, has this sheet in its first 128 bytes and is else as it was lent. */
static bool sheet_of(const uint8_t *lent, size_t length, const char *lines)
{
    return kept(lent, 1) && memcmp(lent + 1, lines, 128) == 0 && kept(lent + 129, length - 129);
}

/* The sheet of a plan, on a page with the bytes that it needs, with one more and with one less; no refusal changes the page. */
static void sheets(void)
{
    /* The calls go through a pointer of the declared type; another type would not compile. */
    uint32_t (*const sheet)(size_t, const uint64_t *, size_t, const uint64_t *, size_t, rota_plan, uint8_t *, size_t) = rota_plan_sheet;
    uint64_t short_opens[4] = {1, 1, 2, 14}, none[4] = {0, 0, 0, 0};
    rota_plan longer = plan(0, 2, 1);
    uint8_t lent[131], *page = lent + 1;

    longer.slots[63] = 1;
    memset(lent, 77, sizeof lent);
    EXPECT(sheet(0, OPENS, 3, CALLOUTS, 3, blank(), page, 0) == ROTA_BAD_N);
    EXPECT(sheet(2, OPENS, 3, CALLOUTS, 3, blank(), page, 0) == ROTA_BAD_TABLE_LENGTH);
    EXPECT(sheet(2, OPENS, 2, CALLOUTS, 2, blank(), page, 0) == ROTA_SLOT_OUTSIDE);
    EXPECT(sheet(3, CALLOUTS, 3, OPENS, 3, blank(), page, 0) == ROTA_CALLOUT_NOT_OPEN);
    EXPECT(sheet(T, blank(), page, 127) == ROTA_OUTPUT_TOO_SHORT);
    EXPECT(sheet(T, plan(0, 2, 1), page, 127) == ROTA_OUTPUT_TOO_SHORT);
    EXPECT(sheet(T, blank(), page, 128) == ROTA_NOT_A_PLAN);
    EXPECT(sheet(T, plan(2, 1, 0), page, 128) == ROTA_NOT_A_PLAN);
    EXPECT(sheet(T, plan(0, 1, 1), page, 128) == ROTA_NOT_A_PLAN);
    EXPECT(sheet(T, longer, page, 128) == ROTA_NOT_A_PLAN);
    EXPECT(sheet(3, short_opens, 3, none, 3, plan(0, 0, 1), page, 128) == ROTA_NOT_A_PLAN);
    EXPECT(kept(lent, sizeof lent));

    EXPECT(sheet(T, plan(0, 2, 1), page, 128) == ROTA_DONE);
    EXPECT(sheet_of(lent, sizeof lent, "IT    SL    C                  \n"
                                       " 0     0    C                  \n"
                                       " 1     2                       \n"
                                       " 2     1                       \n"));
    EXPECT(sheet(T, plan(1, 0, 2), page, 129) == ROTA_DONE);
    EXPECT(sheet_of(lent, sizeof lent, "IT    SL    C                  \n"
                                       " 0     1                       \n"
                                       " 1     0                       \n"
                                       " 2     2    C                  \n"));
}

static void tables(void)
{
    /* Word S: the ways to give the slots of S to the first items. */
    static const uint64_t ways[9] = {1, 1, 1, 2, 0, 1, 1, 3, 77};
    static const uint64_t brittle[3] = {7, 6, 6}, none[3] = {0, 0, 0};
    uint64_t usable[4] = {9, 9, 9, 77}, tally[9];
    rota_count_answer count;
    rota_grade_answer grade;
    rota_price_answer price;

    EXPECT(rota_usable_slots(T, usable, 2) == ROTA_OUTPUT_TOO_SHORT);
    EXPECT(usable[0] == 9 && usable[1] == 9 && usable[2] == 9);
    EXPECT(rota_usable_slots(T, usable, 4) == ROTA_DONE);
    EXPECT(usable[0] == 3 && usable[1] == 7 && usable[2] == 6 && usable[3] == 77);

    memset(tally, 0, sizeof tally);
    tally[8] = 77;
    count = rota_count_plans(T, tally, 7);
    EXPECT(count.code == ROTA_TALLY_TOO_SHORT && count.count == 0 && tally[0] == 0);
    count = rota_count_plans(T, tally, 9);
    EXPECT(count.code == ROTA_DONE && count.count == 3);
    EXPECT(memcmp(tally, ways, sizeof tally) == 0);

    memset(tally, 0, 8 * sizeof tally[0]);
    grade = rota_grade(T, tally, 9);
    EXPECT(grade.code == ROTA_DONE && grade.grade == 3 && grade.items == 0 && grade.shortage == 0);
    EXPECT(memcmp(tally, ways, sizeof tally) == 0);

    memset(tally, 0, 8 * sizeof tally[0]);
    price = rota_monthly_price(T, 0, tally, 9);
    EXPECT(price.code == ROTA_BAD_FLEET && price.cents == 0 && tally[0] == 0);
    price = rota_monthly_price(T, 100, tally, 9);
    EXPECT(price.code == ROTA_DONE && price.cents == 33000 && price.items == 0 && price.shortage == 0);
    EXPECT(memcmp(tally, ways, sizeof tally) == 0);

    /* Three slots are open to item 0, and one of them is usable. */
    EXPECT(rota_usable_slots(3, brittle, 3, none, 3, usable, 3) == ROTA_DONE);
    EXPECT(usable[0] == 1 && usable[1] == 6 && usable[2] == 6 && usable[3] == 77);
    grade = rota_grade(3, brittle, 3, none, 3, tally, 9);
    EXPECT(grade.code == ROTA_DONE && grade.grade == 2 && grade.items == 0 && grade.shortage == 0);
    EXPECT(tally[7] == 2 && tally[8] == 77);
    price = rota_monthly_price(3, brittle, 3, none, 3, 100, tally, 9);
    EXPECT(price.code == ROTA_DONE && price.cents == 350 * 100 && price.items == 0 && price.shortage == 0);
}

/* Open words without callouts. */
#define OPEN(n, words) n, words, n, none, n

/* Count, grade and price with no tally. */
static void without_a_tally(void)
{
    /* The calls go through pointers of the declared types; another type would not compile. */
    rota_count_answer (*const counted)(size_t, const uint64_t *, size_t, const uint64_t *, size_t) = rota_count_plans_untallied;
    rota_grade_answer (*const graded)(size_t, const uint64_t *, size_t, const uint64_t *, size_t) = rota_grade_untallied;
    rota_price_answer (*const priced)(size_t, const uint64_t *, size_t, const uint64_t *, size_t, uint64_t) = rota_monthly_price_untallied;
    static const uint64_t brittle[3] = {7, 6, 6}, short_opens[4] = {1, 1, 2, 14}, none[21] = {0};
    uint64_t all[21];
    rota_count_answer count;
    rota_grade_answer grade;
    rota_price_answer price;

    count = counted(T);
    EXPECT(count.code == ROTA_DONE && count.count == 3);
    grade = graded(T);
    EXPECT(grade.code == ROTA_DONE && grade.grade == 3 && grade.items == 0 && grade.shortage == 0);
    price = priced(T, 100);
    EXPECT(price.code == ROTA_DONE && price.cents == 33000 && price.items == 0 && price.shortage == 0);
    price = priced(T, 0);
    EXPECT(price.code == ROTA_BAD_FLEET && price.cents == 0 && price.items == 0 && price.shortage == 0);
    EXPECT(priced(T, 10000).code == ROTA_DONE && priced(T, 10001).code == ROTA_BAD_FLEET);
    grade = graded(OPEN(3, brittle));
    EXPECT(grade.code == ROTA_DONE && grade.grade == 2 && grade.items == 0 && grade.shortage == 0);
    price = priced(OPEN(3, brittle), 100);
    EXPECT(price.code == ROTA_DONE && price.cents == 350 * 100 && price.items == 0 && price.shortage == 0);

    /* No plan: a count of 0, and 9 for grade and price. */
    count = counted(OPEN(4, short_opens));
    EXPECT(count.code == ROTA_DONE && count.count == 0);
    grade = graded(OPEN(4, short_opens));
    EXPECT(grade.code == ROTA_NO_PLAN && grade.grade == 0 && grade.items == 3 && grade.shortage == 1);
    price = priced(OPEN(4, short_opens), 100);
    EXPECT(price.code == ROTA_NO_PLAN && price.cents == 0 && price.items == 3 && price.shortage == 1);
    EXPECT(priced(OPEN(4, short_opens), 0).code == ROTA_BAD_FLEET);

    /* Every cell of 20 items open: 20! plans. 21 items are too many, whatever the fleet. */
    for (unsigned i = 0; i < 21; i++) {
        all[i] = ((uint64_t)1 << 20) - 1;
    }
    count = counted(OPEN(20, all));
    EXPECT(count.code == ROTA_DONE && count.count == UINT64_C(2432902008176640000));
    grade = graded(OPEN(20, all));
    EXPECT(grade.code == ROTA_DONE && grade.grade == 5);
    count = counted(OPEN(21, all));
    EXPECT(count.code == ROTA_TOO_MANY_TO_COUNT && count.count == 0);
    grade = graded(OPEN(21, all));
    EXPECT(grade.code == ROTA_TOO_MANY_TO_COUNT && grade.grade == 0 && grade.items == 0 && grade.shortage == 0);
    price = priced(OPEN(21, all), 0);
    EXPECT(price.code == ROTA_TOO_MANY_TO_COUNT && price.cents == 0 && price.items == 0 && price.shortage == 0);

    EXPECT(counted(0, OPENS, 3, CALLOUTS, 3).code == ROTA_BAD_N);
    EXPECT(graded(2, OPENS, 3, CALLOUTS, 3).code == ROTA_BAD_TABLE_LENGTH);
    EXPECT(priced(2, OPENS, 2, CALLOUTS, 2, 0).code == ROTA_SLOT_OUTSIDE);
    EXPECT(counted(3, CALLOUTS, 3, OPENS, 3).code == ROTA_CALLOUT_NOT_OPEN);
}

/* 1,000 plans: with item 7, which is brittle, grade 2, and without it grade 5. Every slot is open to item 7, and slot 7 to no other item. */
static void brittle_of_many(void)
{
    static const uint64_t opens[8] = {120, 115, 124, 63, 95, 111, 127, 255}, callouts[8] = {0, 0, 0, 0, 0, 0, 0, 128}, none[7] = {0};
    uint64_t tally[256] = {0};
    rota_grade_answer grade;
    rota_price_answer price;

    grade = rota_grade(8, opens, 8, callouts, 8, tally, 256);
    EXPECT(grade.code == ROTA_DONE && grade.grade == 2 && grade.items == 0 && grade.shortage == 0 && tally[255] == 1000);
    tally[255] = 0;
    price = rota_monthly_price(8, opens, 8, callouts, 8, 100, tally, 256);
    EXPECT(price.code == ROTA_DONE && price.cents == 350 * 100 + 4500 && price.items == 0 && price.shortage == 0 && tally[255] == 1000);
    grade = rota_grade_untallied(8, opens, 8, callouts, 8);
    EXPECT(grade.code == ROTA_DONE && grade.grade == 2 && grade.items == 0 && grade.shortage == 0);
    price = rota_monthly_price_untallied(8, opens, 8, callouts, 8, 100);
    EXPECT(price.code == ROTA_DONE && price.cents == 350 * 100 + 4500 && price.items == 0 && price.shortage == 0);

    tally[127] = 0;
    grade = rota_grade(OPEN(7, opens), tally, 128);
    EXPECT(grade.code == ROTA_DONE && grade.grade == 5 && grade.items == 0 && grade.shortage == 0 && tally[127] == 1000);
    tally[127] = 0;
    price = rota_monthly_price(OPEN(7, opens), 100, tally, 128);
    EXPECT(price.code == ROTA_DONE && price.cents == 195 * 100 && price.items == 0 && price.shortage == 0 && tally[127] == 1000);
    grade = rota_grade_untallied(OPEN(7, opens));
    EXPECT(grade.code == ROTA_DONE && grade.grade == 5 && grade.items == 0 && grade.shortage == 0);
    price = rota_monthly_price_untallied(OPEN(7, opens), 100);
    EXPECT(price.code == ROTA_DONE && price.cents == 195 * 100 && price.items == 0 && price.shortage == 0);
}

enum { LENT_WORDS = 17 };

static void lend_words(uint64_t *tally)
{
    for (size_t i = 0; i < LENT_WORDS; i++) {
        tally[i] = 77;
    }
}

/* Whether the tally has these words first and is else as it was lent. */
static bool tally_of(const uint64_t *tally, const uint64_t *words, size_t length)
{
    for (size_t i = 0; i < LENT_WORDS; i++) {
        if (tally[i] != (i < length ? words[i] : 77)) {
            return false;
        }
    }
    return true;
}

static bool numbered(rota_number_answer a, uint32_t code, uint64_t number)
{
    return a.code == code && a.number == number;
}

typedef rota_plan_answer plan_at(size_t, const uint64_t *, size_t, const uint64_t *, size_t, uint64_t, uint64_t *, size_t);
typedef rota_number_answer plan_number(size_t, const uint64_t *, size_t, const uint64_t *, size_t, rota_plan, uint64_t *, size_t);

/* The plan of a number and the number of a plan; the tally has the ways to give the slots of S to the last items. */
static void plan_numbers(void)
{
    /* The calls go through pointers of the declared types; another type would not compile. */
    plan_at *const at = rota_plan_at;
    plan_number *const number_of = rota_plan_number;
    static const uint64_t ways[8] = {1, 0, 1, 1, 1, 1, 2, 3}, short_opens[4] = {1, 1, 2, 14}, none[4] = {0};
    const rota_plan listed[3] = {plan(0, 1, 2), plan(0, 2, 1), plan(1, 0, 2)};
    rota_plan longer = plan(0, 2, 1);
    uint64_t tally[LENT_WORDS];

    for (unsigned k = 0; k < 3; k++) {
        for (size_t words = 8; words <= LENT_WORDS; words++) {
            lend_words(tally);
            EXPECT(gives(at(T, k, tally, words), ROTA_DONE, listed[k], 0) && tally_of(tally, ways, 8));
            lend_words(tally);
            EXPECT(numbered(number_of(T, listed[k], tally, words), ROTA_DONE, k) && tally_of(tally, ways, 8));
        }
    }

    /* No refusal changes the tally. Without a plan every number is refused. */
    lend_words(tally);
    EXPECT(gives(at(T, 3, tally, 8), ROTA_NO_SUCH_PLAN, blank(), 0));
    EXPECT(gives(at(T, UINT64_MAX, tally, 8), ROTA_NO_SUCH_PLAN, blank(), 0));
    EXPECT(gives(at(OPEN(4, short_opens), 0, tally, 16), ROTA_NO_SUCH_PLAN, blank(), 0));
    EXPECT(gives(at(T, 0, tally, 7), ROTA_TALLY_TOO_SHORT, blank(), 0));
    EXPECT(gives(at(T, 3, tally, 7), ROTA_TALLY_TOO_SHORT, blank(), 0));
    EXPECT(gives(at(0, OPENS, 3, CALLOUTS, 3, 3, tally, 7), ROTA_BAD_N, blank(), 0));
    EXPECT(gives(at(2, OPENS, 3, CALLOUTS, 3, 3, tally, 7), ROTA_BAD_TABLE_LENGTH, blank(), 0));
    EXPECT(gives(at(2, OPENS, 2, CALLOUTS, 2, 3, tally, 3), ROTA_SLOT_OUTSIDE, blank(), 0));
    EXPECT(gives(at(3, CALLOUTS, 3, OPENS, 3, 3, tally, 7), ROTA_CALLOUT_NOT_OPEN, blank(), 0));
    longer.slots[63] = 1;
    EXPECT(numbered(number_of(T, blank(), tally, 8), ROTA_NOT_A_PLAN, 0));
    EXPECT(numbered(number_of(T, plan(2, 1, 0), tally, 8), ROTA_NOT_A_PLAN, 0));
    EXPECT(numbered(number_of(T, plan(0, 1, 1), tally, 8), ROTA_NOT_A_PLAN, 0));
    EXPECT(numbered(number_of(T, longer, tally, 8), ROTA_NOT_A_PLAN, 0));
    EXPECT(numbered(number_of(OPEN(4, short_opens), plan(0, 0, 1), tally, 16), ROTA_NOT_A_PLAN, 0));
    EXPECT(numbered(number_of(T, listed[2], tally, 7), ROTA_TALLY_TOO_SHORT, 0));
    EXPECT(numbered(number_of(T, blank(), tally, 7), ROTA_TALLY_TOO_SHORT, 0));
    EXPECT(numbered(number_of(0, OPENS, 3, CALLOUTS, 3, blank(), tally, 7), ROTA_BAD_N, 0));
    EXPECT(numbered(number_of(2, OPENS, 3, CALLOUTS, 3, blank(), tally, 7), ROTA_BAD_TABLE_LENGTH, 0));
    EXPECT(numbered(number_of(2, OPENS, 2, CALLOUTS, 2, blank(), tally, 3), ROTA_SLOT_OUTSIDE, 0));
    EXPECT(numbered(number_of(3, CALLOUTS, 3, OPENS, 3, blank(), tally, 7), ROTA_CALLOUT_NOT_OPEN, 0));
    EXPECT(tally_of(tally, ways, 0));
}

/* Every cell of 20 items open: 20! plans, the first with rising slots, the last with falling ones. 21 items are too many. */
static void many_plan_numbers(void)
{
    static const uint64_t none[21] = {0};
    const uint64_t plans = UINT64_C(2432902008176640000);
    uint64_t all[21], *tally = (uint64_t *)malloc(sizeof *tally << 20);
    rota_plan rising = plan(0, 0, 0), falling = rising, middle = rising;

    EXPECT(tally != NULL);
    for (unsigned i = 0; i < 21; i++) {
        all[i] = ((uint64_t)1 << 20) - 1;
    }
    for (unsigned i = 0; i < 20; i++) {
        rising.slots[i] = (uint8_t)i;
        falling.slots[i] = (uint8_t)(19 - i);
        /* Slot 10, then all others rising: half of the plans begin with a slot below 10. */
        middle.slots[i] = (uint8_t)(i == 0 ? 10 : i <= 10 ? i - 1 : i);
    }
    EXPECT(gives(rota_plan_at(OPEN(20, all), 0, tally, (size_t)1 << 20), ROTA_DONE, rising, 0));
    EXPECT(gives(rota_plan_at(OPEN(20, all), plans - 1, tally, (size_t)1 << 20), ROTA_DONE, falling, 0));
    EXPECT(gives(rota_plan_at(OPEN(20, all), plans / 2, tally, (size_t)1 << 20), ROTA_DONE, middle, 0));
    EXPECT(gives(rota_plan_at(OPEN(20, all), plans, tally, (size_t)1 << 20), ROTA_NO_SUCH_PLAN, blank(), 0));
    EXPECT(numbered(rota_plan_number(OPEN(20, all), rising, tally, (size_t)1 << 20), ROTA_DONE, 0));
    EXPECT(numbered(rota_plan_number(OPEN(20, all), falling, tally, (size_t)1 << 20), ROTA_DONE, plans - 1));
    EXPECT(numbered(rota_plan_number(OPEN(20, all), middle, tally, (size_t)1 << 20), ROTA_DONE, plans / 2));
    EXPECT(gives(rota_plan_at(OPEN(21, all), 0, tally, (size_t)1 << 20), ROTA_TOO_MANY_TO_COUNT, blank(), 0));
    EXPECT(numbered(rota_plan_number(OPEN(21, all), rising, tally, (size_t)1 << 20), ROTA_TOO_MANY_TO_COUNT, 0));
    free(tally);
}

static void files(void)
{
    uint8_t file[ROTA_BLOCK_BYTES + 1], buffer[ROTA_MOST_ITEMS + 1];
    uint64_t opens[4] = {9, 9, 9, 77}, callouts[4] = {9, 9, 9, 77};
    rota_write_answer written;
    rota_read_answer read;

    file[512] = 77;
    written = rota_write_file(T, file, 513);
    EXPECT(written.code == ROTA_DONE && written.bytes == 512 && file[512] == 77);
    EXPECT(memcmp(file, "ROTA\1\3\0\3\0\0\0\0\0\0\3", 15) == 0);
    EXPECT(file[510] == 82 && file[511] == 1);

    read = rota_read_file(file, 513, opens, 4, callouts, 4);
    EXPECT(read.code == ROTA_BAD_FILE_LENGTH && read.n == 0 && opens[0] == 9 && callouts[0] == 9);
    read = rota_read_file(file, 512, opens, 4, callouts, 4);
    EXPECT(read.code == ROTA_DONE && read.n == 3);
    EXPECT(memcmp(opens, OPENS, sizeof OPENS) == 0 && opens[3] == 77);
    EXPECT(memcmp(callouts, CALLOUTS, sizeof CALLOUTS) == 0 && callouts[3] == 77);

    memset(buffer, 77, sizeof buffer);
    EXPECT(rota_file_first_plan(file, 512, buffer, 63) == ROTA_OUTPUT_TOO_SHORT && buffer[0] == 77);
    EXPECT(rota_file_first_plan(file, 512, buffer, 65) == ROTA_DONE);
    EXPECT(memcmp(buffer, plan(0, 1, 2).slots, 64) == 0 && buffer[64] == 77);
    EXPECT(rota_file_next_plan(file, 512, buffer, 64) == ROTA_DONE);
    EXPECT(memcmp(buffer, plan(0, 2, 1).slots, 64) == 0);
    EXPECT(rota_file_next_plan(file, 512, buffer, 64) == ROTA_DONE);
    EXPECT(memcmp(buffer, plan(1, 0, 2).slots, 64) == 0);
    EXPECT(rota_file_next_plan(file, 512, buffer, 64) == ROTA_NO_FURTHER_PLAN);
    EXPECT(rota_file_fewest_callouts(file, 512, buffer, 64, 0) == ROTA_OVER_CAP);
    EXPECT(memcmp(buffer, plan(1, 0, 2).slots, 64) == 0);
    EXPECT(rota_file_fewest_callouts(file, 512, buffer, 64, 1) == ROTA_DONE);
    EXPECT(memcmp(buffer, plan(0, 2, 1).slots, 64) == 0);
    file[0] += 32;
    EXPECT(rota_file_first_plan(file, 512, buffer, 64) == ROTA_BAD_CHECK);
    file[510] += 32;
    EXPECT(rota_file_first_plan(file, 512, buffer, 64) == ROTA_BAD_LAYOUT);
}

int main(void)
{
    plans();
    cells();
    sheets();
    tables();
    without_a_tally();
    brittle_of_many();
    plan_numbers();
    many_plan_numbers();
    files();
    constants();
    texts();
    no_buffers();
    overlapping_inputs();
#ifdef __cplusplus
    puts("header: every call, constant and text, from C++");
#else
    puts("header: every call, constant and text, from C");
#endif
    return 0;
}
