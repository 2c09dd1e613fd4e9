/* The picture: the grid with its headings, below it the legend, then the figures. Lengths are whole pixels. */
#include "draw.h"

#include <stdio.h>
#include <string.h>

enum {
    MARGIN = 24,
    HEADING = 44,  /* from the margin to the grid, above it and at its left */
    AGAIN = 24,    /* room for the numbers at the grid's other two sides */
    GRID = 720,    /* the grid's width, as far as LEAST and MOST let it be */
    LEAST = 16,    /* a cell's side */
    MOST = 48,
    CONTENT = 436, /* what legend and figures need in width; the grid may take more */
    TEXT = 14,     /* the size of letters */
    LETTER = 8,    /* as wide as they are on average, in wide fonts too */
    LINE = 22,     /* from one line of text to the next */
    SAMPLE = 24,   /* a cell's side in the legend */
    STUB = 72,     /* the legend's column of words, then the others */
    COLUMN = 96,
    ROW = 28,
    LABEL = 140    /* from a figure's label to its value */
};

/* Where the parts are. */
typedef struct {
    int rows, columns;   /* items and slots */
    int cell;            /* a cell's side */
    int left, top;       /* the grid's corner */
    int across, down;    /* its width and height */
    int again;           /* AGAIN, or 0: a small grid has its numbers once */
    int legend, figures; /* their first lines */
    int room;            /* letters in a line of a figure's value */
    int width, height;
} layout;

/* ---- colours that read in grey too, and the looks in a square of 24 by 24 */

#define INK "#222"
#define GREY "#666"
#define FAINT "#b8b8b8"
#define SHORT "fill='#a83e00' font-weight='bold'"

#define DOT "<circle cx='12' cy='12' r='1.5' fill='" FAINT "'/>"
#define CROSS "<path d='M7 7 17 17M17 7 7 17' stroke='#444' stroke-width='1.25'/>"
#define SQUARE(inside, edge) "<rect x='2' y='2' width='20' height='20' rx='2' fill='" inside "' stroke='" edge "'/>"
#define BLUE SQUARE("#d6eaf8", "#7db4da")
#define ORANGE SQUARE("#fde5d3", "#e0a077")
#define DISC(colour) "<circle cx='12' cy='12' r='6' fill='" colour "'/>"
#define TRIANGLE "<path d='M13 2h9v9z' fill='#c85200'/>"

typedef struct {
    const char *id, *shapes;
} drawing;

static const drawing drawings[LOOKS] = {
    [LOOK_CLOSED] = {"closed", DOT},
    [LOOK_UNUSABLE] = {"unusable", CROSS},
    [LOOK_UNUSABLE_CALLOUT] = {"unusable-callout", CROSS TRIANGLE},
    [LOOK_USABLE] = {"usable", BLUE},
    [LOOK_USABLE_CALLOUT] = {"usable-callout", ORANGE TRIANGLE},
    [LOOK_PLAN] = {"plan", BLUE DISC("#00659f")},
    [LOOK_PLAN_CALLOUT] = {"plan-callout", ORANGE TRIANGLE DISC("#a83e00")},
};

/* ---- texts that may be too long for a line */

/* How many letters of a text stand in its first line; lines end at blanks. */
static int first_line(const char *text, int room)
{
    int length = (int)strlen(text);
    if (length <= room) {
        return length;
    }
    for (length = room; length > 0 && text[length] != ' '; length--) {
    }
    return length > 0 ? length : room;
}

/* What follows the first line. */
static const char *further_lines(const char *text, int room)
{
    text += first_line(text, room);
    return *text == ' ' ? text + 1 : text;
}

/* ---- the parts */

static layout layout_of(const input *rota, const figure *figures, size_t count)
{
    layout at = {.rows = (int)rota->n, .columns = (int)rota->m, .left = MARGIN + HEADING, .top = MARGIN + HEADING};
    at.cell = GRID / at.columns / 2 * 2;
    at.cell = at.cell < LEAST ? LEAST : at.cell > MOST ? MOST : at.cell;
    at.across = at.columns * at.cell;
    at.down = at.rows * at.cell;
    at.again = at.columns > 20 ? AGAIN : 0;
    int content = at.across > CONTENT ? at.across : CONTENT;
    at.width = at.left + content + at.again + MARGIN;
    at.legend = at.top + at.down + at.again + 32;
    at.figures = at.legend + 3 * ROW + 2 * LINE;
    at.room = (content - LABEL) / LETTER;
    at.height = at.figures - LINE + MARGIN;
    for (size_t k = 0; k < count; k++) {
        for (const char *text = figures[k].value; *text != '\0'; text = further_lines(text, at.room)) {
            at.height += LINE;
        }
    }
    return at;
}

/* The picture in words, for those who can't see it. */
static void draw_words(const view *v, const layout *at, const figure *figures, size_t count)
{
    printf("<title>Rota of %d item%s</title>\n", at->rows, at->rows == 1 ? "" : "s");
    printf("<desc>%d by %d cells: a row is an item, a column a slot. A square is an open cell that some plan uses,"
           " a disc on it the first plan's cell, a cross an open cell in no plan; a triangle in the corner marks a callout.",
           at->rows, at->columns);
    for (size_t k = 0; k < count; k++) {
        printf(" %s: %s.", figures[k].label, figures[k].value);
    }
    if (v->first.code == ROTA_DONE) {
        fputs(" slots in the first plan, items 0 upward:", stdout);
        for (int i = 0; i < at->rows; i++) {
            printf(" %d", v->first.plan.slots[i]);
        }
        putchar('.');
    }
    puts("</desc>");
}

/* Lines at this distance and at the grid's ends. A grid has no more rows than columns. */
static void draw_lines(const layout *at, int distance, const char *colour)
{
    fputs("<path d='", stdout);
    for (int k = 0; k <= at->columns; k++) {
        int offset = k * at->cell;
        if (k == at->rows || (k < at->rows && k % distance == 0)) {
            printf("M%d %dh%d", at->left, at->top + offset, at->across);
        }
        if (k == at->columns || k % distance == 0) {
            printf("M%d %dv%d", at->left + offset, at->top, at->down);
        }
    }
    printf("' stroke='%s' shape-rendering='crispEdges'/>\n", colour);
}

/* A dot in every cell, by a dotted line through each row; what is drawn of an open cell covers its dot. */
static void draw_dots(const layout *at)
{
    int half = at->cell / 2;
    fputs("<path d='", stdout);
    for (int k = 0; k < at->rows; k++) {
        printf("M%d %dh%d", at->left + half, at->top + k * at->cell + half, at->across - half);
    }
    printf("' stroke='" FAINT "' stroke-width='2' stroke-linecap='round' stroke-dasharray='0 %d'/>\n", at->cell);
}

static void draw_grid(const view *v, const layout *at)
{
    for (int i = 0; i < at->rows; i++) {
        if (v->first.items >> i & 1) {
            printf("<rect x='%d' y='%d' width='%d' height='%d' fill='#f3f3f3'/>\n",
                   at->left, at->top + i * at->cell, at->across, at->cell);
        }
    }
    draw_lines(at, 1, "#e2e2e2");
    draw_dots(at);
    draw_lines(at, at->columns > 10 ? 5 : at->columns, "#a0a0a0");
}

static void draw_cells(const view *v, const layout *at)
{
    for (int i = 0; i < at->rows; i++) {
        for (int j = 0; j < at->columns; j++) {
            look here = view_look(v, (size_t)i, (size_t)j);
            if (here != LOOK_CLOSED) {
                printf("<use href=\"#%s\" x=\"%d\" y=\"%d\" width=\"%d\" height=\"%d\"", drawings[here].id,
                       at->left + j * at->cell, at->top + i * at->cell, at->cell, at->cell);
                printf(" data-item=\"%d\" data-slot=\"%d\"/>\n", i, j);
            }
        }
    }
}

static void draw_headings(const view *v, const layout *at)
{
    int size = at->cell * 5 / 8 < TEXT ? at->cell * 5 / 8 : TEXT;
    printf("<text x='%d' y='%d' fill='" GREY "'>slot</text>\n", at->left, at->top - 28);
    printf("<text x='%d' y='%d' fill='" GREY "' text-anchor='end'>item</text>\n", at->left - 8, at->top - 8);
    printf("<g font-size='%d' text-anchor='middle'>\n", size);
    for (int k = 0; k < at->columns; k++) {
        bool again = at->again > 0, row = k < at->rows;
        int middle = k * at->cell + at->cell / 2, x = at->left + middle, y = at->top + middle + size * 3 / 8;
        printf("<text x='%d' y='%d'>%d</text>\n", x, at->top - 8, k);
        if (row) {
            printf("<text x='%d' y='%d' text-anchor='end'>%d</text>\n", at->left - 8, y, k);
        }
        if (again) {
            printf("<text x='%d' y='%d'>%d</text>\n", x, at->top + at->down + size + 5, k);
        }
        if (again && row) {
            printf("<text x='%d' y='%d' text-anchor='start'>%d</text>\n", at->left + at->across + 8, y, k);
        }
        if (v->first.items >> k & 1) {
            printf("<text x='%d' y='%d' " SHORT ">!</text>\n", at->left - 34, y);
        }
    }
    puts("</g>");
}

/* The same table as the one below a shown grid. */
static void draw_legend(const layout *at)
{
    static const char *const columns[3] = {"in no plan", "usable", "first plan"};
    static const char *const rows[3] = {"open", "callout", "closed"};
    static const look looks[7] = {LOOK_UNUSABLE, LOOK_USABLE, LOOK_PLAN,
                                  LOOK_UNUSABLE_CALLOUT, LOOK_USABLE_CALLOUT, LOOK_PLAN_CALLOUT, LOOK_CLOSED};
    int left = at->left + STUB, top = at->legend + LINE / 2;
    for (int k = 0; k < 3; k++) {
        int middle = left + k * COLUMN + COLUMN / 2;
        printf("<text x='%d' y='%d' text-anchor='middle'>%s</text>\n", middle, at->legend, columns[k]);
        printf("<text x='%d' y='%d'>%s</text>\n", at->left, top + k * ROW + 17, rows[k]);
    }
    for (int k = 0; k < 7; k++) {
        int x = left + k % 3 * COLUMN + (COLUMN - SAMPLE) / 2, y = top + k / 3 * ROW;
        if (k % 3 == 0) { /* no square of its own */
            printf("<rect x='%d' y='%d' width='%d' height='%d' fill='none' stroke='#d8d8d8'/>\n", x, y, SAMPLE, SAMPLE);
        }
        printf("<use href='#%s' x='%d' y='%d' width='%d' height='%d'/>\n", drawings[looks[k]].id, x, y, SAMPLE, SAMPLE);
    }
}

static void draw_figures(const view *v, const layout *at, const figure *figures, size_t count)
{
    int y = at->figures;
    if (v->first.items != 0) {
        printf("<text x='%d' y='%d' text-anchor='middle' " SHORT ">!</text>\n", at->left - 34, y);
    }
    for (size_t k = 0; k < count; k++) {
        printf("<text x='%d' y='%d' fill='" GREY "'>%s</text>\n", at->left, y, figures[k].label);
        for (const char *text = figures[k].value; *text != '\0'; text = further_lines(text, at->room)) {
            printf("<text x='%d' y='%d'>%.*s</text>\n", at->left + LABEL, y, first_line(text, at->room), text);
            y += LINE;
        }
    }
}

void draw(const view *v)
{
    figure figures[FIGURES];
    size_t count = view_figures(v, figures);
    layout at = layout_of(v->rota, figures, count);
    printf("<?xml version='1.0' encoding='UTF-8'?>\n"
           "<svg xmlns='http://www.w3.org/2000/svg' role='img' width='%d' height='%d' viewBox='0 0 %d %d'"
           " font-family='sans-serif' font-size='%d' fill='" INK "'>\n",
           at.width, at.height, at.width, at.height, TEXT);
    draw_words(v, &at, figures, count);
    puts("<defs>");
    for (int k = 0; k < LOOKS; k++) {
        printf("<symbol id='%s' viewBox='0 0 24 24'>%s</symbol>\n", drawings[k].id, drawings[k].shapes);
    }
    puts("</defs>\n<rect width='100%' height='100%' fill='#fff'/>");
    draw_grid(v, &at);
    draw_cells(v, &at);
    draw_headings(v, &at);
    draw_legend(&at);
    draw_figures(v, &at, figures, count);
    puts("</svg>");
}
