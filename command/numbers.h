/* The commands with plan numbers. */
#ifndef NUMBERS_H
#define NUMBERS_H

#include "command.h"

int run_at(const call *c, const input *rota);
int run_number(const call *c, const input *rota);
int run_list(const call *c, const input *rota);

#endif
