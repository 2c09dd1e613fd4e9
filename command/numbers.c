#include "numbers.h"

#include <inttypes.h>
#include <stdio.h>
#include <stdlib.h>

#include "given.h"
#include "json.h"
#include "plans.h"
#include "print.h"
#include "refusals.h"

/* The tally that plan numbers need; none above 20 slots, since the library refuses these before it looks at it. */
typedef struct {
    uint64_t *words;
    size_t length;
} tally;

/* Returns false without memory. */
static bool make_tally(tally *made, const input *rota)
{
    made->length = rota->m <= ROTA_MOST_COUNTED ? (size_t)1 << rota->m : 0;
    made->words = made->length == 0 ? NULL : malloc(made->length * sizeof *made->words);
    return made->length == 0 || made->words != NULL;
}

/* Asks for the plan with this number; returns false without memory. */
static bool find_plan(const input *rota, uint64_t number, rota_plan_answer *answer)
{
    tally room;
    if (!make_tally(&room, rota)) {
        return false;
    }
    *answer = rota_plan_at(TABLES(rota), number, room.words, room.length);
    free(room.words);
    return true;
}

int run_at(const call *c, const input *rota)
{
    rota_plan_answer answer;
    if (!find_plan(rota, c->arguments[0], &answer)) {
        return cannot_read(rota->name);
    }
    return answer_plan(c, rota, answer);
}

int run_number(const call *c, const input *rota)
{
    rota_plan given;
    tally room;
    int status = given_plan(c, rota, &given);
    if (status != DONE) {
        return status;
    }
    if (!make_tally(&room, rota)) {
        return cannot_read(rota->name);
    }
    rota_number_answer answer = rota_plan_number(TABLES(rota), given, room.words, room.length);
    free(room.words);
    if (answer.code != ROTA_DONE) {
        return refuse(c, rota->name, (refusal){.code = answer.code}, "");
    }
    if (wants_json(c)) {
        printf("{\"n\": %zu, \"number\": \"%" PRIu64 "\"}\n", rota->n, answer.number);
    } else {
        printf("%" PRIu64 "\n", answer.number);
    }
    return DONE;
}

/* Lists plans from the given one on, which has this number, as far as they are wanted and can be written. */
static void list_plans(const call *c, const input *rota, rota_plan_answer plan, uint64_t number)
{
    bool json = wants_json(c);
    uint64_t listed = 0;
    if (json) {
        printf("{\"n\": %zu, \"plans\": [", rota->n);
    }
    for (; plan.code == ROTA_DONE && listed < c->numbers[OPTION_MOST] && !ferror(stdout); listed++) {
        if (json) {
            print_text(listed == 0 ? "{\"number\": \"" : ", {\"number\": \"");
            print_number(number + listed);
            print_text("\", ");
            json_plan(rota, &plan.plan);
            print_text("}");
        } else {
            print_number(number + listed);
            print_text(": ");
            print_plan(rota, &plan.plan);
        }
        plan = rota_next_plan(TABLES(rota), plan.plan);
    }
    bool more = plan.code == ROTA_DONE;
    if (json) {
        printf("], \"more\": %s}\n", more ? "true" : "false");
    } else {
        printf("%s %" PRIu64 "\n", more ? "more" : "end", listed);
    }
}

int run_list(const call *c, const input *rota)
{
    uint64_t number = c->numbers[OPTION_FROM];
    rota_plan_answer plan;
    if (c->given[OPTION_FROM] == NULL) {
        plan = rota_first_plan(TABLES(rota));
    } else if (!find_plan(rota, number, &plan)) {
        return cannot_read(rota->name);
    }
    if (plan.code != ROTA_DONE) {
        return refuse_plan(c, rota, plan);
    }
    list_plans(c, rota, plan, number);
    return DONE;
}
