#include "view.h"

#include <stdio.h>

#include "refusals.h"

view view_of(const input *rota)
{
    view v = {
        .rota = rota,
        .first = rota_first_plan(TABLES(rota)),
        .fewest = rota_fewest_callouts(TABLES(rota), UINT32_MAX),
        .count = rota_count_plans_untallied(TABLES(rota)),
        .grade = rota_grade_untallied(TABLES(rota))
    };
    rota_usable_slots(TABLES(rota), v.usable, ROTA_MOST_ITEMS);
    return v;
}

look view_look(const view *v, size_t item, size_t slot)
{
    bool callout = v->rota->callouts[item] >> slot & 1;
    if (!(v->rota->opens[item] >> slot & 1)) {
        return LOOK_CLOSED;
    }
    if (v->first.plan.slots[item] == slot) {
        return callout ? LOOK_PLAN_CALLOUT : LOOK_PLAN;
    }
    if (v->usable[item] >> slot & 1) {
        return callout ? LOOK_USABLE_CALLOUT : LOOK_USABLE;
    }
    return callout ? LOOK_UNUSABLE_CALLOUT : LOOK_UNUSABLE;
}

size_t view_figures(const view *v, figure *lines)
{
    if (v->first.code != ROTA_DONE) {
        lines[0].label = "no plan";
        shortage_words(lines[0].value, v->first.items, v->first.shortage);
        return 1;
    }
    lines[0].label = "plans";
    value_words(lines[0].value, v->count.count, (refusal){.code = v->count.code});
    lines[1].label = "fewest callouts";
    value_words(lines[1].value, v->fewest.callouts, (refusal){.code = v->fewest.code});
    lines[2].label = "grade";
    value_words(lines[2].value, v->grade.grade, (refusal){.code = v->grade.code});
    return FIGURES;
}
