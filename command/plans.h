/* The commands that answer with one plan. */
#ifndef PLANS_H
#define PLANS_H

#include "command.h"
#include "rota.h"

/* Writes the plan or tells the refusal, and returns the exit status. */
int answer_plan(const call *c, const input *rota, rota_plan_answer answer);

int run_first(const call *c, const input *rota);
int run_next(const call *c, const input *rota);
int run_fewest(const call *c, const input *rota);
int run_cell(const call *c, const input *rota);

#endif
