/* A rota to look at, as a grid of characters or as a picture. */
#ifndef SHOW_H
#define SHOW_H

#include "command.h"

int run_show(const call *c, const input *rota);
int run_draw(const call *c, const input *rota);

#endif
