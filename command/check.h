/* What of a rota is refused. */
#ifndef CHECK_H
#define CHECK_H

#include "command.h"

int run_check(const call *c, const input *rota);

#endif
