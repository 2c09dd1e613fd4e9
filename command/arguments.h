/* The words after a command's name. */
#ifndef ARGUMENTS_H
#define ARGUMENTS_H

#include "command.h"

typedef struct {
    const char *name;
    const char *value;  /* what its value is called, NULL if it takes none */
    uint64_t most;      /* the greatest number; 0 if the value is no number */
    uint64_t otherwise; /* the number without the option */
    const char *summary;
} option_kind;

extern const option_kind OPTION_KINDS[OPTIONS];

bool asks_for_help(int count, char **words);

/* Returns the exit status, with a message if it is not DONE. The words are put in another order. */
int arguments_read(call *c, const command *which, int count, char **words);

/* Reads decimal digits; returns whether they are a number up to most, which is 9 or above. */
bool number_read(const char *text, size_t length, uint64_t most, uint64_t *number);

/* Ends the message of a usage error with the usage line, and returns the exit status. */
int called_wrongly(const command *which);

#endif
