#include "plans.h"

#include <inttypes.h>
#include <stdio.h>

#include "given.h"
#include "json.h"
#include "print.h"
#include "refusals.h"

/* Each byte of the blank plan. */
enum { NO_SLOT = 255 };

int answer_plan(const call *c, const input *rota, rota_plan_answer answer)
{
    if (answer.code != ROTA_DONE) {
        return refuse_plan(c, rota, answer);
    }
    if (wants_json(c)) {
        printf("{\"n\": %zu, ", rota->n);
        json_plan(rota, &answer.plan);
        puts("}");
    } else {
        print_plan(rota, &answer.plan);
    }
    return DONE;
}

int run_first(const call *c, const input *rota)
{
    return answer_plan(c, rota, rota_first_plan(TABLES(rota)));
}

int run_next(const call *c, const input *rota)
{
    rota_plan given;
    int status = given_plan(c, rota, &given);
    return status == DONE ? answer_plan(c, rota, rota_next_plan(TABLES(rota), given)) : status;
}

int run_fewest(const call *c, const input *rota)
{
    return answer_plan(c, rota, rota_fewest_callouts(TABLES(rota), (uint32_t)c->numbers[OPTION_CAP]));
}

int run_cell(const call *c, const input *rota)
{
    uint64_t item = c->arguments[0], slot = c->arguments[1];
    rota_plan_answer answer = rota_cell_plan(TABLES(rota), item, slot);
    if (answer.code != ROTA_DONE || answer.plan.slots[0] != NO_SLOT) {
        return answer_plan(c, rota, answer);
    }
    if (wants_json(c)) {
        printf("{\"n\": %zu, \"plan\": null, \"callouts\": null}\n", rota->n);
    } else {
        printf("no complete plan gives item %" PRIu64 " slot %" PRIu64 "\n", item, slot);
    }
    return DONE;
}
