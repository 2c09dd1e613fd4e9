#include "figures.h"

#include <inttypes.h>
#include <stdio.h>

#include "json.h"
#include "refusals.h"
#include "text.h"

int run_usable(const call *c, const input *rota)
{
    uint64_t usable[ROTA_MOST_ITEMS];
    uint32_t code = rota_usable_slots(TABLES(rota), usable, ROTA_MOST_ITEMS);
    if (code != ROTA_DONE) {
        return refuse(c, rota->name, (refusal){.code = code}, "");
    }
    if (wants_json(c)) {
        printf("{\"n\": %zu, \"usable\": ", rota->n);
        json_sets(rota->n, usable);
        puts("}");
    } else {
        text_write(rota->n, rota->m, usable, rota->callouts);
    }
    return DONE;
}

int run_short(const call *c, const input *rota)
{
    char words[WORDS_ROOM];
    rota_plan_answer first = rota_first_plan(TABLES(rota));
    if (wants_json(c)) {
        printf("{\"n\": %zu, \"items\": ", rota->n);
        json_set(first.items);
        printf(", \"shortage\": %" PRIu32 "}\n", first.shortage);
    } else if (first.code == ROTA_NO_PLAN) {
        shortage_words(words, first.items, first.shortage);
        puts(words);
    } else {
        puts("nobody is short: there is a complete plan");
    }
    return DONE;
}

int run_count(const call *c, const input *rota)
{
    rota_count_answer answer = rota_count_plans_untallied(TABLES(rota));
    if (answer.code != ROTA_DONE) {
        return refuse(c, rota->name, (refusal){.code = answer.code}, "");
    }
    if (wants_json(c)) {
        printf("{\"n\": %zu, \"count\": \"%" PRIu64 "\"}\n", rota->n, answer.count);
    } else {
        printf("%" PRIu64 "\n", answer.count);
    }
    return DONE;
}

int run_grade(const call *c, const input *rota)
{
    rota_grade_answer answer = rota_grade_untallied(TABLES(rota));
    if (answer.code != ROTA_DONE) {
        return refuse(c, rota->name, (refusal){answer.code, answer.shortage, answer.items, 0}, "");
    }
    if (wants_json(c)) {
        printf("{\"n\": %zu, \"grade\": %" PRIu32 "}\n", rota->n, answer.grade);
    } else {
        printf("%" PRIu32 "\n", answer.grade);
    }
    return DONE;
}

/* As in "42,900". */
static void print_thousands(uint64_t number)
{
    if (number < 1000) {
        printf("%" PRIu64, number);
    } else {
        print_thousands(number / 1000);
        printf(",%03" PRIu64, number % 1000);
    }
}

int run_price(const call *c, const input *rota)
{
    uint64_t vehicles = c->arguments[0];
    rota_price_answer answer = rota_monthly_price_untallied(TABLES(rota), vehicles);
    if (answer.code != ROTA_DONE) {
        return refuse(c, rota->name, (refusal){answer.code, answer.shortage, answer.items, 0}, "");
    }
    if (wants_json(c)) {
        printf("{\"n\": %zu, \"vehicles\": %" PRIu64 ", \"cents\": %" PRIu64 ", \"money\": \"",
               rota->n, vehicles, answer.cents);
    } else {
        printf("%" PRIu64 " cents, ", answer.cents);
    }
    print_thousands(answer.cents / 100);
    printf(".%02" PRIu64 "%s\n", answer.cents % 100, wants_json(c) ? "\"}" : " a month");
    return DONE;
}
