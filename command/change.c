#include "change.h"

#include <inttypes.h>
#include <stdio.h>
#include <string.h>

#include "arguments.h"
#include "json.h"
#include "refusals.h"
#include "replace.h"
#include "text.h"

/* What a change tells of the rota, before it and after it. */
typedef struct {
    char cell; /* as in a text */
    rota_count_answer count;
    rota_grade_answer grade;
} side;

static side side_of(const input *rota, size_t item, size_t slot)
{
    return (side){
        .cell = text_cell(rota->opens[item] >> slot & 1, rota->callouts[item] >> slot & 1),
        .count = rota_count_plans_untallied(TABLES(rota)),
        .grade = rota_grade_untallied(TABLES(rota))
    };
}

/* Puts the changed rota in place of the old one. A text keeps every byte but the cell's. Returns the exit status. */
static int save(const call *c, const input *rota, size_t item, size_t slot, char cell)
{
    uint8_t file[ROTA_FILE_BYTES];
    bool done;
    if (rota->text) {
        rota->bytes[rota->cells_at[item] + slot] = (uint8_t)cell;
        done = replace(c->file, rota->bytes, rota->length);
    } else {
        rota_write_answer answer = rota_write_file(TABLES(rota), file, sizeof file);
        if (answer.code != ROTA_DONE) {
            return refuse(c, rota->name, (refusal){.code = answer.code}, "");
        }
        done = replace(c->file, file, (size_t)answer.bytes);
    }
    return done ? DONE : cannot_write(rota->name);
}

static const char *cell_words(char cell)
{
    return cell == '.' ? "closed" : cell == 'o' ? "open" : "a callout";
}

static void grade_words(char *out, rota_grade_answer answer)
{
    value_words(out, answer.grade, (refusal){answer.code, answer.shortage, answer.items, 0});
}

static void tell_line(const char *what, const char *before, const char *after)
{
    if (strcmp(before, after) == 0) {
        printf("%s: %s, as before\n", what, before);
    } else {
        printf("%s: %s, now %s\n", what, before, after);
    }
}

static void tell(const call *c, const side *before, const side *after)
{
    char was[WORDS_ROOM], is[WORDS_ROOM];
    snprintf(was, sizeof was, "item %" PRIu64 ", slot %" PRIu64, c->arguments[0], c->arguments[1]);
    tell_line(was, cell_words(before->cell), cell_words(after->cell));
    value_words(was, before->count.count, (refusal){.code = before->count.code});
    value_words(is, after->count.count, (refusal){.code = after->count.code});
    tell_line("plans", was, is);
    grade_words(was, before->grade);
    grade_words(is, after->grade);
    tell_line("grade", was, is);
}

static void tell_json_side(const char *name, const side *s)
{
    printf(", \"%s\": {\"cell\": \"%s\", ", name, s->cell == 'C' ? "callout" : cell_words(s->cell));
    json_count(s->count);
    printf(", ");
    json_grade(s->grade);
    printf("}");
}

static void tell_json(const call *c, const input *rota, const side *before, const side *after)
{
    printf("{\"n\": %zu, \"item\": %" PRIu64 ", \"slot\": %" PRIu64, rota->n, c->arguments[0], c->arguments[1]);
    tell_json_side("before", before);
    tell_json_side("after", after);
    puts("}");
}

static int change(const call *c, const input *rota, char cell)
{
    uint64_t item = c->arguments[0], slot = c->arguments[1];
    if (item >= rota->n || slot >= rota->m) {
        bool no_item = item >= rota->n;
        fprintf(stderr, "rota: the rota has no %s %" PRIu64 "\n", no_item ? "item" : "slot", no_item ? item : slot);
        return called_wrongly(c->command);
    }
    uint64_t bit = (uint64_t)1 << slot;
    input changed = *rota;
    changed.opens[item] = cell == '.' ? rota->opens[item] & ~bit : rota->opens[item] | bit;
    changed.callouts[item] = cell == 'C' ? rota->callouts[item] | bit : rota->callouts[item] & ~bit;
    side before = side_of(rota, item, slot), after = side_of(&changed, item, slot);
    int status = before.cell == cell ? DONE : save(c, &changed, item, slot, cell);
    if (status != DONE) {
        return status;
    }
    if (wants_json(c)) {
        tell_json(c, rota, &before, &after);
    } else {
        tell(c, &before, &after);
    }
    return DONE;
}

int run_open(const call *c, const input *rota)
{
    return change(c, rota, 'o');
}

int run_close(const call *c, const input *rota)
{
    return change(c, rota, '.');
}

int run_callout(const call *c, const input *rota)
{
    return change(c, rota, 'C');
}
