/* The plan that a command is given, by its slots or by a sheet. */
#ifndef GIVEN_H
#define GIVEN_H

#include "command.h"
#include "rota.h"

/* Returns the exit status, with a message if it is not DONE. */
int given_plan(const call *c, const input *rota, rota_plan *plan);

#endif
