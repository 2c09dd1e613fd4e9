/* A command, and a call of it: what the words after its name say. */
#ifndef COMMAND_H
#define COMMAND_H

#include <stdbool.h>
#include <stddef.h>
#include <stdint.h>

#include "input.h"
#include "rota.h"

/* --help is every command's and stands apart. */
typedef enum {
    OPTION_FROM,
    OPTION_MOST,
    OPTION_CAP,
    OPTION_SHEET,
    OPTION_FEWEST,
    OPTION_JSON,
    OPTIONS
} option;

typedef struct command command;

typedef struct {
    const command *command;
    const char *file;
    uint64_t arguments[2]; /* the numbers after FILE */
    bool slots_given;
    size_t slots_count; /* of all that are given; 64 are kept */
    uint8_t slots[ROTA_MOST_ITEMS];
    const char *given[OPTIONS]; /* an option's value as given, NULL without the option */
    uint64_t numbers[OPTIONS];  /* the same as a number, or the option's default */
} call;

static inline bool wants_json(const call *c)
{
    return c->given[OPTION_JSON] != NULL;
}

/* What a command takes besides numbers and options, and what it has of its own. */
enum {
    TAKES_FILE = 1,
    TAKES_PLAN = 2,   /* SLOTS or an option in their place */
    NEEDS_PLAN = 4,
    NEEDS_PATH = 8,   /* FILE must not be standard input */
    NO_TERMINAL = 16, /* standard output must not be a terminal */
    ADVISES = 32      /* a refused FILE brings advice */
};

struct command {
    const char *name;
    const char *usage;
    unsigned traits;
    size_t arguments; /* numbers, after FILE if it takes one */
    unsigned options; /* bit o is set if it takes option o */
    int (*run)(const call *c, const input *rota); /* returns the exit status; rota is NULL without TAKES_FILE */
    const char *summary;
    const char *about;
};

#endif
