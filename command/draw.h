/* The picture of a rota. */
#ifndef DRAW_H
#define DRAW_H

#include "view.h"

/* Writes one SVG file to standard output. */
void draw(const view *v);

#endif
