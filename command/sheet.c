#include "sheet.h"

#include <stdio.h>

#include "given.h"
#include "json.h"
#include "refusals.h"

/* The plan that the sheet is of. Returns the exit status, with a message if it is not DONE. */
static int find_plan(const call *c, const input *rota, rota_plan *plan)
{
    if (c->slots_given || c->given[OPTION_SHEET] != NULL) {
        return given_plan(c, rota, plan);
    }
    rota_plan_answer answer = c->given[OPTION_FEWEST] != NULL ? rota_fewest_callouts(TABLES(rota), UINT32_MAX)
                                                              : rota_first_plan(TABLES(rota));
    *plan = answer.plan;
    return answer.code == ROTA_DONE ? DONE : refuse_plan(c, rota, answer);
}

int run_sheet(const call *c, const input *rota)
{
    rota_plan plan;
    uint8_t page[ROTA_SHEET_BYTES];
    size_t length = (rota->n + 1) * ROTA_LINE_BYTES;
    int status = find_plan(c, rota, &plan);
    if (status != DONE) {
        return status;
    }
    uint32_t code = rota_plan_sheet(TABLES(rota), plan, page, sizeof page);
    if (code != ROTA_DONE) {
        return refuse(c, rota->name, (refusal){.code = code}, "");
    }
    if (!wants_json(c)) {
        fwrite(page, 1, length, stdout);
        return DONE;
    }
    printf("{\"n\": %zu, ", rota->n);
    json_plan(rota, &plan);
    fputs(", \"sheet\": \"", stdout);
    for (size_t i = 0; i < length; i++) {
        if (page[i] == '\n') {
            fputs("\\n", stdout);
        } else {
            putchar(page[i]); /* a space, a letter or a digit */
        }
    }
    puts("\"}");
    return DONE;
}
