#include "text.h"

#include <stdio.h>
#include <string.h>

#include "refusals.h"

/* How far a text is read. */
typedef struct {
    input *in;
    size_t at;    /* the byte that is read now */
    size_t line;  /* its line, from 1 */
    size_t start; /* the first byte of that line */
    size_t items; /* lines of cells read */
} reader;

bool text_blank(uint8_t byte)
{
    return byte == ' ' || byte == '\t' || byte == '\r';
}

/* The byte that is read now; a line feed at the end of the text. */
static uint8_t current(const reader *r)
{
    return r->at < r->in->length ? r->in->bytes[r->at] : '\n';
}

static bool at_end_of_line(const reader *r)
{
    return current(r) == '#' || current(r) == '\n';
}

/* Begins the message of an error at the byte that is read now. */
static void tell_place(const reader *r)
{
    fprintf(stderr, "rota: %s: line %zu, column %zu: ", r->in->name, r->line, r->at - r->start + 1);
}

static int no_cell(const reader *r)
{
    uint8_t byte = current(r);
    tell_place(r);
    fprintf(stderr, byte >= 0x21 && byte <= 0x7e ? "'%c'" : "byte %02x", byte);
    fputs(" is no cell; a cell is . (closed), o (open) or C (open and a callout)\n", stderr);
    return FAILED;
}

/* There are as many lines as the first one has cells. Tells if a further line, or else the end, must not stand here. */
static int check_lines(const reader *r, bool further)
{
    size_t m = r->in->m;
    if (further ? r->items < m : r->items == m) {
        return DONE;
    }
    tell_place(r);
    if (further) {
        fprintf(stderr, "there are more lines of cells than the %zu that the first one asks for\n", m);
    } else {
        fprintf(stderr, "there are fewer lines of cells than the first one asks for: %zu, not %zu\n", r->items, m);
    }
    return FAILED;
}

static int read_cell(const reader *r, size_t slot)
{
    input *in = r->in;
    bool first = r->items == 0;
    uint8_t byte = current(r);
    if (byte != '.' && byte != 'o' && byte != 'C') {
        return no_cell(r);
    }
    int status = first ? DONE : check_lines(r, true);
    if (status != DONE) {
        return status;
    }
    if (!first && slot == in->m) {
        tell_place(r);
        fprintf(stderr, "there are more cells than the %zu of the first line\n", in->m);
        return FAILED;
    }
    if (slot == ROTA_MOST_ITEMS) {
        in->code = ROTA_BAD_N;
        snprintf(in->more, sizeof in->more, "line %zu has more than 64 cells", r->line);
        return REFUSED;
    }
    in->opens[r->items] |= (uint64_t)(byte != '.') << slot;
    in->callouts[r->items] |= (uint64_t)(byte == 'C') << slot;
    return DONE;
}

/* Reads the cells of an item; there is at least one. */
static int read_cells(reader *r)
{
    input *in = r->in;
    size_t begin = r->at;
    for (; !text_blank(current(r)) && !at_end_of_line(r); r->at++) {
        int status = read_cell(r, r->at - begin);
        if (status != DONE) {
            return status;
        }
    }
    size_t cells = r->at - begin;
    if (r->items == 0) {
        in->m = cells;
    }
    if (cells < in->m) {
        tell_place(r);
        fprintf(stderr, "there are fewer cells than in the first line: %zu, not %zu\n", cells, in->m);
        return FAILED;
    }
    in->cells_at[r->items++] = begin;
    return DONE;
}

static void skip_blanks(reader *r)
{
    while (text_blank(current(r))) {
        r->at++;
    }
}

/* Reads a line up to its comment or end. */
static int read_line(reader *r)
{
    skip_blanks(r);
    if (at_end_of_line(r)) {
        return DONE;
    }
    int status = read_cells(r);
    skip_blanks(r);
    if (status == DONE && !at_end_of_line(r)) {
        tell_place(r);
        fputs("nothing but a comment may follow the cells\n", stderr);
        return FAILED;
    }
    return status;
}

int text_read(input *in)
{
    bool mark = in->length >= 3 && memcmp(in->bytes, "\xef\xbb\xbf", 3) == 0; /* the byte order mark */
    reader r = {.in = in, .at = mark ? 3 : 0, .line = 1};
    for (r.start = r.at; r.at < in->length; r.start = r.at, r.line++) {
        int status = read_line(&r);
        if (status != DONE) {
            return status;
        }
        while (current(&r) != '\n') {
            r.at++;
        }
        r.at++;
    }
    if (r.items == 0) {
        in->code = ROTA_BAD_N;
        snprintf(in->more, sizeof in->more, "the text has no line of cells");
        return REFUSED;
    }
    in->n = r.items;
    return check_lines(&r, false);
}

char text_cell(bool open, bool callout)
{
    return !open ? '.' : callout ? 'C' : 'o';
}

void text_write(size_t n, size_t m, const uint64_t *opens, const uint64_t *callouts)
{
    for (size_t i = 0; i < n; i++) {
        for (size_t j = 0; j < m; j++) {
            putchar(text_cell(opens[i] >> j & 1, callouts[i] >> j & 1));
        }
        putchar('\n');
    }
}
