#include "show.h"

#include <inttypes.h>
#include <stdio.h>
#include <stdlib.h>
#include <string.h>
#include <unistd.h>

#include "draw.h"
#include "json.h"
#include "refusals.h"
#include "view.h"

/* A character and its colour on a terminal. */
typedef struct {
    char character;
    const char *colour;
} mark;

static const mark MARKS[LOOKS] = {
    [LOOK_CLOSED] = {'.', "2"},
    [LOOK_UNUSABLE] = {'-', "31"},
    [LOOK_UNUSABLE_CALLOUT] = {'c', "31"},
    [LOOK_USABLE] = {'o', "32"},
    [LOOK_USABLE_CALLOUT] = {'C', "33"},
    [LOOK_PLAN] = {'*', "1;7;32"},
    [LOOK_PLAN_CALLOUT] = {'@', "1;7;33"}
};

static const mark SHORT_MARK = {'!', "1;31"};

/* The legend's lines; a digit stands for the mark of the look with this number. */
static const char LEGEND[] =
    "         in no plan   usable   first plan\n"
    "open         1          3          5\n"
    "callout      2          4          6\n"
    "closed       0\n";

static bool wants_colour(void)
{
    const char *without = getenv("NO_COLOR"), *terminal = getenv("TERM");
    return isatty(STDOUT_FILENO) && (without == NULL || *without == '\0') &&
           terminal != NULL && strcmp(terminal, "dumb") != 0;
}

static void show_mark(mark m, bool colour)
{
    if (colour) {
        printf("\033[%sm%c\033[0m", m.colour, m.character);
    } else {
        putchar(m.character);
    }
}

/* Above 32 slots the cells stand without spaces, so that the grid fits a terminal. */
static const char *between(size_t m)
{
    return m <= 32 ? " " : "";
}

static void show_heading(size_t m)
{
    printf("      slot\n");
    if (m > 10) {
        printf("      ");
        for (size_t j = 0; j < m; j++) {
            printf("%s%c", j == 0 ? "" : between(m), j < 10 ? ' ' : (char)('0' + j / 10));
        }
        putchar('\n');
    }
    printf("item  ");
    for (size_t j = 0; j < m; j++) {
        printf("%s%zu", j == 0 ? "" : between(m), j % 10);
    }
    putchar('\n');
}

static void show_items(const view *v, bool colour)
{
    size_t n = v->rota->n, m = v->rota->m;
    for (size_t i = 0; i < n; i++) {
        if (v->first.items >> i & 1) {
            show_mark(SHORT_MARK, colour);
        } else {
            putchar(' ');
        }
        printf("%3zu  ", i);
        for (size_t j = 0; j < m; j++) {
            fputs(j == 0 ? "" : between(m), stdout);
            show_mark(MARKS[view_look(v, i, j)], colour);
        }
        putchar('\n');
    }
}

static void show_legend(bool colour)
{
    for (const char *at = LEGEND; *at != '\0'; at++) {
        if (*at >= '0' && *at < '0' + LOOKS) {
            show_mark(MARKS[*at - '0'], colour);
        } else {
            putchar(*at);
        }
    }
}

static void show_figures(const view *v)
{
    figure lines[FIGURES];
    size_t count = view_figures(v, lines);
    if (count == 1) {
        printf("%s: %s\n", lines[0].label, lines[0].value);
        return;
    }
    for (size_t i = 0; i < count; i++) {
        printf("%-17s%s\n", lines[i].label, lines[i].value);
    }
}

static void show_json(const view *v)
{
    const input *rota = v->rota;
    printf("{\"n\": %zu, \"open\": ", rota->n);
    json_sets(rota->n, rota->opens);
    printf(", \"callout\": ");
    json_sets(rota->n, rota->callouts);
    printf(", \"usable\": ");
    json_sets(rota->n, v->usable);
    printf(", \"first\": ");
    if (v->first.code == ROTA_DONE) {
        json_slots(rota, &v->first.plan);
    } else {
        printf("null");
    }
    printf(", ");
    json_count(v->count);
    if (v->fewest.code == ROTA_DONE) {
        printf(", \"fewest\": %" PRIu32 ", ", v->fewest.callouts);
    } else {
        printf(", \"fewest\": null, ");
    }
    json_grade(v->grade);
    printf(", \"items\": ");
    json_set(v->first.items);
    printf(", \"shortage\": %" PRIu32 "}\n", v->first.shortage);
}

int run_show(const call *c, const input *rota)
{
    view v = view_of(rota);
    if (wants_json(c)) {
        show_json(&v);
        return DONE;
    }
    bool colour = wants_colour();
    show_heading(rota->m);
    show_items(&v, colour);
    putchar('\n');
    show_legend(colour);
    putchar('\n');
    show_figures(&v);
    return DONE;
}

int run_draw(const call *c, const input *rota)
{
    (void)c;
    view v = view_of(rota);
    draw(&v);
    return DONE;
}
