/* A rota in its other form, and a new one. */
#ifndef CONVERT_H
#define CONVERT_H

#include "command.h"

int run_text(const call *c, const input *rota);
int run_file(const call *c, const input *rota);
int run_new(const call *c, const input *rota);

#endif
