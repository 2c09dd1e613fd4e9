/* The commands that answer with figures. */
#ifndef FIGURES_H
#define FIGURES_H

#include "command.h"

int run_usable(const call *c, const input *rota);
int run_short(const call *c, const input *rota);
int run_count(const call *c, const input *rota);
int run_grade(const call *c, const input *rota);
int run_price(const call *c, const input *rota);

#endif
