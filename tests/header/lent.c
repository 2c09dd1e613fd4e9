/* Buffers at the edge of what the header allows: none at all, with length 0, and inputs that overlap. */
#include "rota.h"

#include "parts.h"

#include <string.h>

/* No tables: as tables of length 0. */
#define NO_TABLES NULL, 0, NULL, 0

static void no_tables(void)
{
    rota_lister lister = ROTA_LISTER_FRESH;

    EXPECT(gives(rota_first_plan(0, NO_TABLES), ROTA_BAD_N, blank(), 0));
    EXPECT(gives(rota_first_plan(3, NO_TABLES), ROTA_BAD_TABLE_LENGTH, blank(), 0));
    EXPECT(gives(rota_first_plan(3, OPENS, 3, NULL, 0), ROTA_BAD_TABLE_LENGTH, blank(), 0));
    EXPECT(gives(rota_first_plan(3, NULL, 0, CALLOUTS, 3), ROTA_BAD_TABLE_LENGTH, blank(), 0));
    EXPECT(gives(rota_next_plan(0, NO_TABLES, plan(0, 1, 2)), ROTA_BAD_N, blank(), 0));
    EXPECT(gives(rota_next_plan(3, NO_TABLES, plan(0, 1, 2)), ROTA_BAD_TABLE_LENGTH, blank(), 0));
    EXPECT(gives(rota_list_plan(&lister, 0, NO_TABLES), ROTA_BAD_N, blank(), 0));
    EXPECT(gives(rota_list_plan(&lister, 3, NO_TABLES), ROTA_BAD_TABLE_LENGTH, blank(), 0));
    EXPECT(!lister.started && same(lister.plan, plan(0, 0, 0)));
    EXPECT(gives(rota_fewest_callouts(0, NO_TABLES, 9), ROTA_BAD_N, blank(), 0));
    EXPECT(gives(rota_fewest_callouts(3, NO_TABLES, 9), ROTA_BAD_TABLE_LENGTH, blank(), 0));
    EXPECT(gives(rota_cell_plan(0, NO_TABLES, 0, 0), ROTA_BAD_N, blank(), 0));
    EXPECT(gives(rota_cell_plan(3, NO_TABLES, 0, 0), ROTA_BAD_TABLE_LENGTH, blank(), 0));
    EXPECT(rota_plan_sheet(0, NO_TABLES, plan(0, 1, 2), NULL, 0) == ROTA_BAD_N);
    EXPECT(rota_plan_sheet(3, NO_TABLES, plan(0, 1, 2), NULL, 0) == ROTA_BAD_TABLE_LENGTH);
    EXPECT(rota_usable_slots(0, NO_TABLES, NULL, 0) == ROTA_BAD_N);
    EXPECT(rota_count_plans(0, NO_TABLES, NULL, 0).code == ROTA_BAD_N);
    EXPECT(rota_grade(0, NO_TABLES, NULL, 0).code == ROTA_BAD_N);
    EXPECT(rota_monthly_price(0, NO_TABLES, 0, NULL, 0).code == ROTA_BAD_N);
    EXPECT(rota_count_plans_untallied(0, NO_TABLES).code == ROTA_BAD_N);
    EXPECT(rota_count_plans_untallied(3, NO_TABLES).code == ROTA_BAD_TABLE_LENGTH);
    EXPECT(rota_grade_untallied(0, NO_TABLES).code == ROTA_BAD_N);
    EXPECT(rota_grade_untallied(3, NO_TABLES).code == ROTA_BAD_TABLE_LENGTH);
    EXPECT(rota_monthly_price_untallied(0, NO_TABLES, 0).code == ROTA_BAD_N);
    EXPECT(rota_monthly_price_untallied(3, NO_TABLES, 0).code == ROTA_BAD_TABLE_LENGTH);
    EXPECT(gives(rota_plan_at(0, NO_TABLES, 0, NULL, 0), ROTA_BAD_N, blank(), 0));
    EXPECT(gives(rota_plan_at(3, NO_TABLES, 0, NULL, 0), ROTA_BAD_TABLE_LENGTH, blank(), 0));
    EXPECT(rota_plan_number(0, NO_TABLES, plan(0, 1, 2), NULL, 0).code == ROTA_BAD_N);
    EXPECT(rota_plan_number(3, NO_TABLES, plan(0, 1, 2), NULL, 0).code == ROTA_BAD_TABLE_LENGTH);
    EXPECT(rota_write_file(0, NO_TABLES, NULL, 0).code == ROTA_BAD_N);
}

static void no_outputs(void)
{
    uint64_t none[21] = {0}, table[3] = {9, 9, 9};
    uint8_t file[ROTA_BLOCK_BYTES];
    rota_read_answer read;

    EXPECT(rota_plan_sheet(T, plan(0, 1, 2), NULL, 0) == ROTA_OUTPUT_TOO_SHORT);
    EXPECT(rota_plan_sheet(T, blank(), NULL, 0) == ROTA_OUTPUT_TOO_SHORT);
    EXPECT(rota_usable_slots(T, NULL, 0) == ROTA_OUTPUT_TOO_SHORT);
    EXPECT(rota_count_plans(T, NULL, 0).code == ROTA_TALLY_TOO_SHORT);
    EXPECT(rota_count_plans(21, none, 21, none, 21, NULL, 0).code == ROTA_TOO_MANY_TO_COUNT);
    EXPECT(rota_grade(T, NULL, 0).code == ROTA_TALLY_TOO_SHORT);
    EXPECT(rota_monthly_price(T, 0, NULL, 0).code == ROTA_TALLY_TOO_SHORT);
    EXPECT(gives(rota_plan_at(T, 0, NULL, 0), ROTA_TALLY_TOO_SHORT, blank(), 0));
    EXPECT(gives(rota_plan_at(T, 3, NULL, 0), ROTA_TALLY_TOO_SHORT, blank(), 0));
    EXPECT(gives(rota_plan_at(21, none, 21, none, 21, 0, NULL, 0), ROTA_TOO_MANY_TO_COUNT, blank(), 0));
    EXPECT(rota_plan_number(T, plan(0, 1, 2), NULL, 0).code == ROTA_TALLY_TOO_SHORT);
    EXPECT(rota_plan_number(T, blank(), NULL, 0).code == ROTA_TALLY_TOO_SHORT);
    EXPECT(rota_plan_number(21, none, 21, none, 21, blank(), NULL, 0).code == ROTA_TOO_MANY_TO_COUNT);
    EXPECT(rota_write_file(T, NULL, 0).code == ROTA_OUTPUT_TOO_SHORT);

    EXPECT(rota_write_file(T, file, sizeof file).code == ROTA_DONE);
    EXPECT(rota_read_file(NULL, 0, NULL, 0, NULL, 0).code == ROTA_BAD_FILE_LENGTH);
    read = rota_read_file(file, sizeof file, NULL, 0, NULL, 0);
    EXPECT(read.code == ROTA_OUTPUT_TOO_SHORT && read.n == 0);
    EXPECT(rota_read_file(file, sizeof file, table, 3, NULL, 0).code == ROTA_OUTPUT_TOO_SHORT);
    EXPECT(rota_read_file(file, sizeof file, NULL, 0, table, 3).code == ROTA_OUTPUT_TOO_SHORT);
    EXPECT(table[0] == 9 && table[1] == 9 && table[2] == 9);
    EXPECT(rota_file_first_plan(NULL, 0, NULL, 0) == ROTA_BAD_FILE_LENGTH);
    EXPECT(rota_file_next_plan(NULL, 0, NULL, 0) == ROTA_BAD_FILE_LENGTH);
    EXPECT(rota_file_fewest_callouts(NULL, 0, NULL, 0, 9) == ROTA_BAD_FILE_LENGTH);
    EXPECT(rota_file_first_plan(file, sizeof file, NULL, 0) == ROTA_OUTPUT_TOO_SHORT);
    EXPECT(rota_file_next_plan(file, sizeof file, NULL, 0) == ROTA_OUTPUT_TOO_SHORT);
    EXPECT(rota_file_fewest_callouts(file, sizeof file, NULL, 0, 9) == ROTA_OUTPUT_TOO_SHORT);
}

void no_buffers(void)
{
    no_tables();
    no_outputs();
}

/* T's open table as both tables, so that every open cell is a callout; then two tables that share two words. */
void overlapping_inputs(void)
{
#define TWICE 3, OPENS, 3, OPENS, 3
    /* Open words 7, 6, 6 and callout words 6, 6, 4: plan 0 1 2 has two callouts, 0 2 1 has one. */
    static const uint64_t words[4] = {7, 6, 6, 4};
    rota_lister lister = ROTA_LISTER_FRESH;
    uint64_t usable[3], tally[8], opens[3], callouts[3];
    uint8_t file[ROTA_BLOCK_BYTES], page[4 * ROTA_LINE_BYTES];
    rota_price_answer price;
    rota_number_answer number;

    EXPECT(gives(rota_first_plan(TWICE), ROTA_DONE, plan(0, 1, 2), 0));
    EXPECT(gives(rota_next_plan(TWICE, plan(0, 1, 2)), ROTA_DONE, plan(0, 2, 1), 0));
    EXPECT(gives(rota_list_plan(&lister, TWICE), ROTA_DONE, plan(0, 1, 2), 0));
    EXPECT(gives(rota_fewest_callouts(TWICE, 3), ROTA_DONE, plan(0, 1, 2), 3));
    EXPECT(gives(rota_fewest_callouts(TWICE, 2), ROTA_OVER_CAP, blank(), 3));
    EXPECT(gives(rota_cell_plan(TWICE, 1, 2), ROTA_DONE, plan(0, 2, 1), 0));
    EXPECT(rota_plan_sheet(TWICE, plan(1, 0, 2), page, sizeof page) == ROTA_DONE);
    EXPECT(page[12] == 'C' && page[32 + 12] == 'C' && page[64 + 12] == 'C' && page[96 + 12] == 'C');
    EXPECT(rota_usable_slots(TWICE, usable, 3) == ROTA_DONE && memcmp(usable, OPENS, sizeof usable) == 0);
    EXPECT(rota_count_plans(TWICE, tally, 8).count == 3 && tally[7] == 3);
    EXPECT(rota_grade(TWICE, tally, 8).grade == 3);
    price = rota_monthly_price(TWICE, 100, tally, 8);
    EXPECT(price.code == ROTA_DONE && price.cents == 285 * 100 + 3 * 4500);
    EXPECT(rota_count_plans_untallied(TWICE).count == 3);
    EXPECT(rota_grade_untallied(TWICE).grade == 3);
    EXPECT(rota_monthly_price_untallied(TWICE, 100).cents == 285 * 100 + 3 * 4500);
    EXPECT(gives(rota_plan_at(TWICE, 2, tally, 8), ROTA_DONE, plan(1, 0, 2), 0));
    number = rota_plan_number(TWICE, plan(1, 0, 2), tally, 8);
    EXPECT(number.code == ROTA_DONE && number.number == 2 && tally[6] == 2);
    EXPECT(rota_write_file(TWICE, file, sizeof file).code == ROTA_DONE);
    EXPECT(rota_read_file(file, sizeof file, opens, 3, callouts, 3).n == 3);
    EXPECT(memcmp(opens, OPENS, sizeof opens) == 0 && memcmp(callouts, OPENS, sizeof callouts) == 0);

    EXPECT(gives(rota_first_plan(3, words, 3, words + 1, 3), ROTA_DONE, plan(0, 1, 2), 0));
    EXPECT(gives(rota_fewest_callouts(3, words, 3, words + 1, 3, 9), ROTA_DONE, plan(0, 2, 1), 1));
    EXPECT(gives(rota_cell_plan(3, words, 3, words + 1, 3, 1, 2), ROTA_DONE, plan(0, 2, 1), 0));
    EXPECT(gives(rota_cell_plan(3, words, 3, words + 1, 3, 0, 1), ROTA_DONE, blank(), 0));
    EXPECT(rota_plan_sheet(3, words, 3, words + 1, 3, plan(0, 2, 1), page, sizeof page) == ROTA_DONE);
    EXPECT(page[12] == 'C' && page[32 + 12] == ' ' && page[64 + 12] == 'C' && page[96 + 12] == ' ');
    EXPECT(rota_grade(3, words, 3, words + 1, 3, tally, 8).grade == 2);
    price = rota_monthly_price(3, words, 3, words + 1, 3, 100, tally, 8);
    EXPECT(price.code == ROTA_DONE && price.cents == 350 * 100 + 4500);
    EXPECT(rota_count_plans_untallied(3, words, 3, words + 1, 3).count == 2);
    EXPECT(rota_grade_untallied(3, words, 3, words + 1, 3).grade == 2);
    EXPECT(rota_monthly_price_untallied(3, words, 3, words + 1, 3, 100).cents == 350 * 100 + 4500);
    EXPECT(gives(rota_plan_at(3, words, 3, words + 1, 3, 1, tally, 8), ROTA_DONE, plan(0, 2, 1), 0));
    number = rota_plan_number(3, words, 3, words + 1, 3, plan(0, 2, 1), tally, 8);
    EXPECT(number.code == ROTA_DONE && number.number == 1);
}
