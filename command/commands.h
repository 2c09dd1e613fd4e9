/* The table of commands. */
#ifndef COMMANDS_H
#define COMMANDS_H

#include "command.h"

extern const command COMMANDS[];
extern const size_t COMMANDS_COUNT;

/* NULL if there is none with this name. */
const command *command_named(const char *name);

#endif
