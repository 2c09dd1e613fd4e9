#include "given.h"

#include <inttypes.h>
#include <stdio.h>
#include <string.h>

#include "arguments.h"
#include "refusals.h"
#include "text.h"

/* The words of a sheet's line, as far as there is room: one more than a line has, so that a longer one is told. */
enum { WORDS = 4 };
typedef struct {
    size_t count;
    const char *text[WORDS];
    size_t length[WORDS];
} line_words;

/* How far a sheet is read. */
typedef struct {
    const input *sheet;
    size_t n;
    rota_plan *plan;
    size_t line;   /* from 1 */
    bool headed;   /* the heading is read */
    uint64_t seen; /* bit i is set if item i is read */
} reader;

static line_words split(const char *line, size_t length)
{
    line_words words = {.count = 0};
    size_t at = 0;
    while (words.count < WORDS) {
        while (at < length && text_blank((uint8_t)line[at])) {
            at++;
        }
        if (at == length) {
            break;
        }
        size_t begin = at;
        while (at < length && !text_blank((uint8_t)line[at])) {
            at++;
        }
        words.text[words.count] = line + begin;
        words.length[words.count++] = at - begin;
    }
    return words;
}

static bool is_word(const line_words *words, size_t which, const char *text)
{
    return words->length[which] == strlen(text) && memcmp(words->text[which], text, strlen(text)) == 0;
}

/* Begins the message of an error. */
static void tell_line(const reader *r)
{
    fprintf(stderr, "rota: %s: line %zu: ", r->sheet->name, r->line);
}

static int no_heading(const reader *r)
{
    tell_line(r);
    fputs("this is no heading IT SL C\n", stderr);
    return FAILED;
}

static int read_heading(reader *r, const line_words *words)
{
    r->headed = words->count == 3 && is_word(words, 0, "IT") && is_word(words, 1, "SL") && is_word(words, 2, "C");
    return r->headed ? DONE : no_heading(r);
}

static int read_item(reader *r, const line_words *words)
{
    uint64_t item, slot;
    if (words->count < 2 || words->count > 3 || (words->count == 3 && !is_word(words, 2, "C")) ||
        !number_read(words->text[0], words->length[0], UINT64_MAX, &item) ||
        !number_read(words->text[1], words->length[1], ROTA_MOST_ITEMS - 1, &slot)) {
        tell_line(r);
        fputs("an item, its slot and perhaps a C are wanted\n", stderr);
        return FAILED;
    }
    if (item >= r->n) {
        tell_line(r);
        fprintf(stderr, "the rota has no item %" PRIu64 "\n", item);
        return FAILED;
    }
    if (r->seen >> item & 1) {
        tell_line(r);
        fprintf(stderr, "item %" PRIu64 " stands twice\n", item);
        return FAILED;
    }
    r->plan->slots[item] = (uint8_t)slot;
    r->seen |= (uint64_t)1 << item;
    return DONE;
}

static int read_sheet(const input *sheet, size_t n, rota_plan *plan)
{
    reader r = {.sheet = sheet, .n = n, .plan = plan, .line = 1};
    const char *text = (const char *)sheet->bytes;
    for (size_t at = 0; at < sheet->length; r.line++) {
        const char *feed = memchr(text + at, '\n', sheet->length - at);
        size_t length = (feed == NULL ? sheet->length : (size_t)(feed - text)) - at;
        line_words words = split(text + at, length);
        at += length + 1;
        int status = words.count == 0 ? DONE : r.headed ? read_item(&r, &words) : read_heading(&r, &words);
        if (status != DONE) {
            return status;
        }
    }
    if (!r.headed) {
        return no_heading(&r);
    }
    for (size_t i = 0; i < n; i++) {
        if (!(r.seen >> i & 1)) {
            tell_line(&r);
            fprintf(stderr, "item %zu is missing\n", i);
            return FAILED;
        }
    }
    return DONE;
}

int given_plan(const call *c, const input *rota, rota_plan *plan)
{
    *plan = (rota_plan){{0}};
    if (c->given[OPTION_SHEET] != NULL) {
        input sheet;
        int status = input_read_text(&sheet, c->given[OPTION_SHEET]);
        if (status == DONE) {
            status = read_sheet(&sheet, rota->n, plan);
        }
        input_free(&sheet);
        return status;
    }
    if (c->slots_count != rota->n) {
        fprintf(stderr, "rota: a slot for each item is wanted: %zu, not %zu\n", rota->n, c->slots_count);
        return called_wrongly(c->command);
    }
    memcpy(plan->slots, c->slots, rota->n);
    return DONE;
}
