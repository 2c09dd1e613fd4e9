/* The text form of a rota: a line for each item, and in it a character for each slot. */
#ifndef TEXT_H
#define TEXT_H

#include <stdbool.h>
#include <stddef.h>
#include <stdint.h>

#include "input.h"

/* A space, tab or carriage return. */
bool text_blank(uint8_t byte);

/* Reads the rota from an input's bytes; returns what input_read does. */
int text_read(input *in);

/* The character of a cell; one that is not open is closed, whether it is a callout or not. */
char text_cell(bool open, bool callout);

/* Writes n lines of m cells to standard output. */
void text_write(size_t n, size_t m, const uint64_t *opens, const uint64_t *callouts);

#endif
