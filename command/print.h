/* Numbers and plans on standard output. A listing has millions of them, so they are written without printf. */
#ifndef PRINT_H
#define PRINT_H

#include <stdint.h>

#include "input.h"
#include "rota.h"

void print_text(const char *text);

void print_number(uint64_t number);

void print_slots(const input *rota, const rota_plan *plan, const char *between);

/* As in "0 1 2 / 2", with a line feed. */
void print_plan(const input *rota, const rota_plan *plan);

/* How many callouts a plan has. */
unsigned plan_callouts(const input *rota, const rota_plan *plan);

#endif
