#include "check.h"

#include <stdio.h>

#include "json.h"
#include "refusals.h"

enum { QUESTIONS = 3 };
static const char *const OF[QUESTIONS] = {"first plan", "count", "grade"};

static void tell_json(const input *rota, const refusal *why)
{
    const char *before = "";
    printf("{\"form\": \"%s\", \"n\": %zu, \"refused\": [", rota->text ? "text" : "file", rota->n);
    for (size_t i = 0; i < QUESTIONS; i++) {
        if (why[i].code != ROTA_DONE) {
            printf("%s{\"of\": \"%s\", ", before, OF[i]);
            json_refusal(why[i]);
            putchar('}');
            before = ", ";
        }
    }
    puts("]}");
}

static void tell(const input *rota, const refusal *why)
{
    uint64_t advised = 0; /* bit c is set if the advice for code c was given */
    printf("rota %s of %zu item%s: accepted\n", rota->text ? "text" : "file", rota->n, rota->n == 1 ? "" : "s");
    for (size_t i = 0; i < QUESTIONS; i++) {
        char words[WORDS_ROOM] = "done";
        if (why[i].code != ROTA_DONE) {
            refusal_words(words, why[i]);
        }
        printf("%s: %s\n", OF[i], words);
        if (why[i].code != ROTA_DONE && !(advised >> why[i].code & 1)) {
            printf("  %s\n", advice(why[i].code));
            advised |= (uint64_t)1 << why[i].code;
        }
    }
}

int run_check(const call *c, const input *rota)
{
    rota_plan_answer first = rota_first_plan(TABLES(rota));
    rota_count_answer count = rota_count_plans_untallied(TABLES(rota));
    rota_grade_answer grade = rota_grade_untallied(TABLES(rota));
    refusal why[QUESTIONS] = {
        {first.code, first.shortage, first.items, 0},
        {.code = count.code},
        {grade.code, grade.shortage, grade.items, 0}
    };
    if (wants_json(c)) {
        tell_json(rota, why);
    } else {
        tell(rota, why);
    }
    return first.code == ROTA_DONE ? DONE : REFUSED;
}
