/* What show and draw show of a rota: every answer that the picture needs, asked of the library once. */
#ifndef VIEW_H
#define VIEW_H

#include <stddef.h>
#include <stdint.h>

#include "input.h"
#include "refusals.h"
#include "rota.h"

typedef struct {
    const input *rota;
    uint64_t usable[ROTA_MOST_ITEMS];
    rota_plan_answer first;
    rota_plan_answer fewest;
    rota_count_answer count;
    rota_grade_answer grade;
} view;

/* How a cell looks. */
typedef enum {
    LOOK_CLOSED,
    LOOK_UNUSABLE,
    LOOK_UNUSABLE_CALLOUT,
    LOOK_USABLE,
    LOOK_USABLE_CALLOUT,
    LOOK_PLAN,
    LOOK_PLAN_CALLOUT,
    LOOKS
} look;

/* A line below the grid; without a plan there is one, and its label is "no plan". */
enum { FIGURES = 3 };
typedef struct {
    const char *label;
    char value[WORDS_ROOM];
} figure;

view view_of(const input *rota);

look view_look(const view *v, size_t item, size_t slot);

/* Writes the lines that there are, at most FIGURES, and returns how many. */
size_t view_figures(const view *v, figure *lines);

#endif
