/* Help texts, on standard output. */
#ifndef HELP_H
#define HELP_H

#include "command.h"

#define GENERAL_USAGE "usage: rota COMMAND FILE ... [OPTIONS]\n"

void help(void);

void help_of(const command *which);

#endif
