/* The sizes at their bounds, the version, and the text of each number. CHANGELOG_VERSION is the newest version of CHANGELOG.md. */
#include "rota.h"

#include "parts.h"

#include <stdio.h>
#include <stdlib.h>
#include <string.h>

/* The number, and a word that no other text has. */
static const struct {
    uint32_t code;
    const char *word;
} WORDS[] = {
    {ROTA_DONE, "done"},
    {ROTA_BAD_N, "1 to 64 items"},
    {ROTA_BAD_TABLE_LENGTH, "one word for each item"},
    {ROTA_SLOT_OUTSIDE, "a slot that the rota does not have"},
    {ROTA_CALLOUT_NOT_OPEN, "a callout"},
    {ROTA_TOO_MANY_TO_COUNT, "up to 20 items"},
    {ROTA_TALLY_TOO_SHORT, "tally"},
    {ROTA_BAD_FLEET, "1 to 10,000 vehicles"},
    {ROTA_NOT_A_PLAN, "the given plan is no complete plan"},
    {ROTA_NO_PLAN, "there is no complete plan"},
    {ROTA_NO_FURTHER_PLAN, "follows"},
    {ROTA_OVER_CAP, "cap"},
    {ROTA_BAD_FILE_LENGTH, "512, 1,024 or 1,536 bytes"},
    {ROTA_BAD_CHECK, "check"},
    {ROTA_BAD_LAYOUT, "laid out"},
    {ROTA_OUTPUT_TOO_SHORT, "too little room"},
    {ROTA_NO_SUCH_PLAN, "this plan number"},
    {ROTA_NO_SUCH_PLAN + 1, "no such number"}
};
enum { NUMBERS = sizeof WORDS / sizeof WORDS[0] };

/* Each number has one text, and its word is in no other. */
void texts(void)
{
    EXPECT(NUMBERS == 18);
    for (uint32_t i = 0; i < NUMBERS; i++) {
        EXPECT(WORDS[i].code == i);
        for (uint32_t j = 0; j < NUMBERS; j++) {
            EXPECT((strstr(rota_code_text(j), WORDS[i].word) != NULL) == (i == j));
        }
    }
    EXPECT(strcmp(rota_code_text(UINT32_MAX), rota_code_text(17)) == 0);
    EXPECT(strcmp(rota_code_text(256), rota_code_text(17)) == 0);
}

/* The most items, and one more: slot i is open to item i alone. */
static void most_items(void)
{
    uint64_t opens[ROTA_MOST_ITEMS + 1], none[ROTA_MOST_ITEMS + 1];
    uint8_t file[ROTA_FILE_BYTES], page[ROTA_SHEET_BYTES];
    rota_plan_answer a;
    rota_write_answer written;
    uint32_t code;

    for (unsigned i = 0; i <= ROTA_MOST_ITEMS; i++) {
        opens[i] = (uint64_t)1 << (i % 64);
        none[i] = 0;
    }
    a = rota_first_plan(ROTA_MOST_ITEMS, opens, ROTA_MOST_ITEMS, none, ROTA_MOST_ITEMS);
    EXPECT(a.code == ROTA_DONE && a.plan.slots[0] == 0 && a.plan.slots[ROTA_MOST_ITEMS - 1] == ROTA_MOST_ITEMS - 1);
    code = rota_plan_sheet(ROTA_MOST_ITEMS, opens, ROTA_MOST_ITEMS, none, ROTA_MOST_ITEMS, a.plan, page, ROTA_SHEET_BYTES - 1);
    EXPECT(code == ROTA_OUTPUT_TOO_SHORT);
    code = rota_plan_sheet(ROTA_MOST_ITEMS, opens, ROTA_MOST_ITEMS, none, ROTA_MOST_ITEMS, a.plan, page, ROTA_SHEET_BYTES);
    EXPECT(code == ROTA_DONE);
    EXPECT(memcmp(page + ROTA_SHEET_BYTES - ROTA_LINE_BYTES, "63    63                       \n", ROTA_LINE_BYTES) == 0);
    a = rota_first_plan(ROTA_MOST_ITEMS + 1, opens, ROTA_MOST_ITEMS + 1, none, ROTA_MOST_ITEMS + 1);
    EXPECT(gives(a, ROTA_BAD_N, blank(), 0));
    a = rota_cell_plan(ROTA_MOST_ITEMS, opens, ROTA_MOST_ITEMS, none, ROTA_MOST_ITEMS, ROTA_MOST_ITEMS - 1, ROTA_MOST_ITEMS - 1);
    EXPECT(a.code == ROTA_DONE && a.plan.slots[0] == 0 && a.plan.slots[ROTA_MOST_ITEMS - 1] == ROTA_MOST_ITEMS - 1);
    a = rota_cell_plan(ROTA_MOST_ITEMS, opens, ROTA_MOST_ITEMS, none, ROTA_MOST_ITEMS, ROTA_MOST_ITEMS, 0);
    EXPECT(gives(a, ROTA_DONE, blank(), 0));
    written = rota_write_file(ROTA_MOST_ITEMS, opens, ROTA_MOST_ITEMS, none, ROTA_MOST_ITEMS, file, ROTA_FILE_BYTES - 1);
    EXPECT(written.code == ROTA_OUTPUT_TOO_SHORT && written.bytes == 0);
    written = rota_write_file(ROTA_MOST_ITEMS, opens, ROTA_MOST_ITEMS, none, ROTA_MOST_ITEMS, file, ROTA_FILE_BYTES);
    EXPECT(written.code == ROTA_DONE && written.bytes == ROTA_FILE_BYTES);
    written = rota_write_file(1, opens, 1, none, 1, file, ROTA_BLOCK_BYTES);
    EXPECT(written.code == ROTA_DONE && written.bytes == ROTA_BLOCK_BYTES);
    EXPECT(rota_plan_sheet(1, opens, 1, none, 1, plan(0, 0, 0), page, 2 * ROTA_LINE_BYTES - 1) == ROTA_OUTPUT_TOO_SHORT);
    EXPECT(rota_plan_sheet(1, opens, 1, none, 1, plan(0, 0, 0), page, 2 * ROTA_LINE_BYTES) == ROTA_DONE);
}

/* The most items that are counted, and one more: slots i and i + 1 are open to item i, which makes one plan. */
static void most_counted(void)
{
#define MOST ROTA_MOST_COUNTED, opens, ROTA_MOST_COUNTED, none, ROTA_MOST_COUNTED
#define ONE_MORE ROTA_MOST_COUNTED + 1, opens, ROTA_MOST_COUNTED + 1, none, ROTA_MOST_COUNTED + 1
    uint64_t opens[ROTA_MOST_COUNTED + 1], none[ROTA_MOST_COUNTED + 1];
    size_t words = (size_t)1 << ROTA_MOST_COUNTED;
    uint64_t *tally = (uint64_t *)malloc(2 * words * sizeof *tally);
    rota_count_answer count;
    rota_number_answer number;
    rota_plan_answer a;

    EXPECT(tally != NULL);
    for (unsigned i = 0; i <= ROTA_MOST_COUNTED; i++) {
        opens[i] = (uint64_t)3 << i;
        none[i] = 0;
    }
    opens[ROTA_MOST_COUNTED - 1] = (uint64_t)1 << (ROTA_MOST_COUNTED - 1);
    count = rota_count_plans(MOST, tally, words - 1);
    EXPECT(count.code == ROTA_TALLY_TOO_SHORT && count.count == 0);
    count = rota_count_plans(MOST, tally, words);
    EXPECT(count.code == ROTA_DONE && count.count == 1);
    count = rota_count_plans_untallied(MOST);
    EXPECT(count.code == ROTA_DONE && count.count == 1);
    EXPECT(gives(rota_plan_at(MOST, 0, tally, words - 1), ROTA_TALLY_TOO_SHORT, blank(), 0));
    EXPECT(gives(rota_plan_at(MOST, 1, tally, words), ROTA_NO_SUCH_PLAN, blank(), 0));
    a = rota_plan_at(MOST, 0, tally, words);
    EXPECT(a.code == ROTA_DONE && a.plan.slots[0] == 0 && a.plan.slots[ROTA_MOST_COUNTED - 1] == ROTA_MOST_COUNTED - 1);
    number = rota_plan_number(MOST, a.plan, tally, words - 1);
    EXPECT(number.code == ROTA_TALLY_TOO_SHORT && number.number == 0);
    number = rota_plan_number(MOST, a.plan, tally, words);
    EXPECT(number.code == ROTA_DONE && number.number == 0);

    opens[ROTA_MOST_COUNTED] = (uint64_t)1 << ROTA_MOST_COUNTED;
    count = rota_count_plans(ONE_MORE, tally, 2 * words);
    EXPECT(count.code == ROTA_TOO_MANY_TO_COUNT && count.count == 0);
    count = rota_count_plans_untallied(ONE_MORE);
    EXPECT(count.code == ROTA_TOO_MANY_TO_COUNT && count.count == 0);
    EXPECT(gives(rota_plan_at(ONE_MORE, 0, tally, 2 * words), ROTA_TOO_MANY_TO_COUNT, blank(), 0));
    a = rota_first_plan(ONE_MORE);
    EXPECT(a.code == ROTA_DONE && a.plan.slots[ROTA_MOST_COUNTED] == ROTA_MOST_COUNTED);
    number = rota_plan_number(ONE_MORE, a.plan, tally, 2 * words);
    EXPECT(number.code == ROTA_TOO_MANY_TO_COUNT && number.number == 0);
    free(tally);
}

/* The version's text and its numbers. */
static void version(void)
{
    char numbers[40];

    snprintf(numbers, sizeof numbers, "%d.%d.%d", ROTA_VERSION_MAJOR, ROTA_VERSION_MINOR, ROTA_VERSION_PATCH);
    EXPECT(strcmp(ROTA_VERSION, CHANGELOG_VERSION) == 0);
    EXPECT(strcmp(numbers, CHANGELOG_VERSION) == 0);
}

void constants(void)
{
    version();
    most_items();
    most_counted();
}
