/* The commands that change a cell of a rota. */
#ifndef CHANGE_H
#define CHANGE_H

#include "command.h"

int run_open(const call *c, const input *rota);
int run_close(const call *c, const input *rota);
int run_callout(const call *c, const input *rota);

#endif
