#include "refusals.h"

#include <errno.h>
#include <inttypes.h>
#include <stdio.h>
#include <string.h>

#include "json.h"

void shortage_words(char *out, uint64_t items, uint32_t shortage)
{
    bool one = (items & (items - 1)) == 0;
    int at = sprintf(out, "item%s ", one ? "" : "s");
    for (unsigned i = 0; items != 0; i++) {
        if (items >> i & 1) {
            items ^= (uint64_t)1 << i; /* those after i */
            at += sprintf(out + at, "%u%s", i, items == 0 ? "" : (items & (items - 1)) == 0 ? " and " : ", ");
        }
    }
    sprintf(out + at, " %s short by %" PRIu32 " slot%s", one ? "is" : "are", shortage, shortage == 1 ? "" : "s");
}

void refusal_words(char *out, refusal why)
{
    int at = sprintf(out, "refused %" PRIu32 ": %s", why.code, rota_code_text(why.code));
    if (why.code == ROTA_NO_PLAN) {
        at += sprintf(out + at, "; ");
        shortage_words(out + at, why.items, why.shortage);
    }
}

void value_words(char *out, uint64_t value, refusal why)
{
    if (why.code == ROTA_DONE) {
        sprintf(out, "%" PRIu64, value);
    } else {
        refusal_words(out, why);
    }
}

int refuse(const call *c, const char *name, refusal why, const char *more)
{
    char words[WORDS_ROOM];
    refusal_words(words, why);
    fprintf(stderr, "rota: %s%s%s%s%s\n", name, *name == '\0' ? "" : ": ", words, *more == '\0' ? "" : "; ", more);
    if (wants_json(c)) {
        putchar('{');
        json_refusal(why);
        puts("}");
    }
    return REFUSED;
}

int refuse_plan(const call *c, const input *rota, rota_plan_answer answer)
{
    refusal why = {answer.code, answer.shortage, answer.items, answer.callouts};
    char more[64] = "";
    if (answer.code == ROTA_OVER_CAP) {
        snprintf(more, sizeof more, "the fewest are %" PRIu32 ", the cap is %" PRIu64,
                 answer.callouts, c->numbers[OPTION_CAP]);
    }
    return refuse(c, rota->name, why, more);
}

const char *advice(uint32_t code)
{
    switch (code) {
    case ROTA_BAD_N:
        return "Write a line for each item, 1 to 64 of them, and in each line a character for each slot.";
    case ROTA_SLOT_OUTSIDE:
        return "The number of items or an item's open slots are wrong; make the file anew from its text.";
    case ROTA_CALLOUT_NOT_OPEN:
        return "Open that slot to the item, or take the callout away; make the file anew from its text.";
    case ROTA_TOO_MANY_TO_COUNT:
        return "Plans, usable slots, fewest callouts and who is short are given up to 64 items.";
    case ROTA_NO_PLAN:
        return "These items have too few slots between them: open further slots to them.";
    case ROTA_BAD_FILE_LENGTH:
        return "It was cut off or is no rota file; get it again from where it came.";
    case ROTA_BAD_CHECK:
        return "A byte was changed on its way; get it again from where it came.";
    case ROTA_BAD_LAYOUT:
        return "It is no rota file, or of another edition; get it again from where it came.";
    default:
        return "";
    }
}

int cannot_read(const char *name)
{
    fprintf(stderr, "rota: can't read %s: %s\n", name, strerror(errno));
    return FAILED;
}

int cannot_write(const char *name)
{
    fprintf(stderr, "rota: can't write %s: %s\n", name, strerror(errno));
    return FAILED;
}
