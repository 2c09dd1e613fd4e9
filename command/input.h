/* The rota that a command is given: a file or a text, from a path or from standard input. */
#ifndef INPUT_H
#define INPUT_H

#include <stdbool.h>
#include <stddef.h>
#include <stdint.h>

#include "rota.h"

typedef struct {
    const char *name; /* as messages have it */
    uint8_t *bytes;
    size_t length;
    bool text;                        /* a text, not a rota file */
    size_t cells_at[ROTA_MOST_ITEMS]; /* of a text: where the cells of item i begin */
    size_t n; /* items */
    size_t m; /* slots */
    uint64_t opens[ROTA_MOST_ITEMS];
    uint64_t callouts[ROTA_MOST_ITEMS];
    uint32_t code; /* ROTA_DONE, or why the rota is refused */
    char more[64]; /* what a refused text's message has after the number's text */
} input;

/* What every call on tables is given first. */
#define TABLES(rota) (rota)->n, (rota)->opens, (rota)->n, (rota)->callouts, (rota)->n

/*
 * Both return an exit status of refusals.h. With FAILED it has been told why, with REFUSED the code says why. The input
 * must be freed in any case.
 */
int input_read(input *in, const char *path);

/* Reads a text that is no rota: name, bytes and length. */
int input_read_text(input *in, const char *path);

void input_free(input *in);

#endif
