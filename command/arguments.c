#include "arguments.h"

#include <inttypes.h>
#include <stdio.h>
#include <string.h>
#include <unistd.h>

#include "refusals.h"

const option_kind OPTION_KINDS[OPTIONS] = {
    [OPTION_FROM] = {"--from", "K", UINT64_MAX, 0, "begin with plan number K; without it with the first plan"},
    [OPTION_MOST] = {"--most", "N", UINT64_MAX, 1000, "N plans at most; without it 1000"},
    [OPTION_CAP] = {"--cap", "R", UINT32_MAX, UINT32_MAX, "R callouts at most; without it any number will do"},
    [OPTION_SHEET] = {"--sheet", "SHEET", 0, 0, "the plan on the sheet in the file SHEET; - is standard input"},
    [OPTION_FEWEST] = {"--fewest", NULL, 0, 0, "the plan with the fewest callouts"},
    [OPTION_JSON] = {"--json", NULL, 0, 0, "the answer as one line of JSON"}
};

int called_wrongly(const command *which)
{
    fprintf(stderr, "usage: %s\n", which->usage);
    return CALLED_WRONGLY;
}

bool asks_for_help(int count, char **words)
{
    for (int i = 0; i < count && strcmp(words[i], "--") != 0; i++) {
        if (strcmp(words[i], "--help") == 0) {
            return true;
        }
    }
    return false;
}

bool number_read(const char *text, size_t length, uint64_t most, uint64_t *number)
{
    uint64_t value = 0;
    for (size_t i = 0; i < length; i++) {
        unsigned digit = (unsigned char)text[i] - (unsigned)'0';
        if (digit > 9 || value > (most - digit) / 10) {
            return false;
        }
        value = value * 10 + digit;
    }
    *number = value;
    return length > 0;
}

/* Reads a number that a call is given; tells if it is none. */
static bool read_given(const char *text, uint64_t most, uint64_t *number)
{
    if (!number_read(text, strlen(text), most, number)) {
        fprintf(stderr, "rota: '%s' is no number from 0 to %" PRIu64 "\n", text, most);
        return false;
    }
    return true;
}

/* The option that a word names, up to its end or the equals sign; OPTIONS if the command has none such. */
static option find_option(const command *which, const char *word, size_t length)
{
    option o = 0;
    while (o < OPTIONS && (strncmp(OPTION_KINDS[o].name, word, length) != 0 || OPTION_KINDS[o].name[length] != '\0')) {
        o++;
    }
    return o < OPTIONS && which->options >> o & 1 ? o : OPTIONS;
}

/* Reads the option at words[*at], and the next word if this is its value; tells if it is wrong. */
static bool read_option(call *c, int count, char **words, int *at)
{
    const char *word = words[*at];
    size_t length = strcspn(word, "=");
    option o = find_option(c->command, word, length);
    if (o == OPTIONS) {
        fprintf(stderr, "rota: %s has no option '%.*s'\n", c->command->name, (int)length, word);
        return false;
    }
    const option_kind *kind = &OPTION_KINDS[o];
    bool joined = word[length] == '=', last = *at + 1 == count || strcmp(words[*at + 1], "--") == 0;
    if (c->given[o] != NULL) {
        fprintf(stderr, "rota: %s is given twice\n", kind->name);
        return false;
    }
    if (kind->value == NULL ? joined : !joined && last) {
        fprintf(stderr, "rota: %s %s\n", kind->name, joined ? "takes no value" : "needs a value");
        return false;
    }
    c->given[o] = joined ? word + length + 1 : kind->value == NULL ? "" : words[++*at];
    return kind->most == 0 || read_given(c->given[o], kind->most, &c->numbers[o]);
}

/* Reads the slots up to a stroke; tells if one is no slot. */
static bool read_slots(call *c, size_t count, char **words)
{
    for (size_t i = 0; i < count && strcmp(words[i], "/") != 0; i++) {
        uint64_t slot;
        if (!read_given(words[i], ROTA_MOST_ITEMS - 1, &slot)) {
            return false;
        }
        if (i < ROTA_MOST_ITEMS) {
            c->slots[i] = (uint8_t)slot;
        }
        c->slots_count = i + 1;
    }
    return true;
}

/* Tells what is wrong with what is given together, if anything is. */
static bool fits(const call *c)
{
    unsigned traits = c->command->traits;
    bool standard = c->file != NULL && strcmp(c->file, "-") == 0;
    const char *sheet = c->given[OPTION_SHEET], *wrong = NULL;
    if (c->slots_given + (sheet != NULL) + (c->given[OPTION_FEWEST] != NULL) > 1) {
        wrong = "the plan is given twice";
    } else if (standard && sheet != NULL && strcmp(sheet, "-") == 0) {
        wrong = "only one of FILE and SHEET can be standard input";
    } else if (standard && traits & NEEDS_PATH) {
        wrong = "a change needs a file, not standard input";
    } else if (traits & NO_TERMINAL && isatty(STDOUT_FILENO)) {
        wrong = "a rota file is no text for a terminal; say rota file TEXT > FILE";
    }
    if (wrong != NULL) {
        fprintf(stderr, "rota: %s\n", wrong);
    }
    return wrong == NULL;
}

/* Reads the words that are no options; tells what is wrong with them. */
static bool read_words(call *c, size_t count, char **words)
{
    const command *which = c->command;
    size_t files = which->traits & TAKES_FILE ? 1 : 0, wanted = files + which->arguments;
    bool plan = which->traits & NEEDS_PLAN && c->given[OPTION_SHEET] == NULL;
    if (count < wanted + plan) {
        fprintf(stderr, "rota: too few arguments are given\n");
        return false;
    }
    if (count > wanted && !(which->traits & TAKES_PLAN)) {
        fprintf(stderr, "rota: too many arguments are given\n");
        return false;
    }
    c->file = files == 0 ? NULL : words[0];
    for (size_t i = 0; i < which->arguments; i++) {
        if (!read_given(words[files + i], UINT64_MAX, &c->arguments[i])) {
            return false;
        }
    }
    c->slots_given = count > wanted;
    return read_slots(c, count - wanted, words + wanted) && fits(c);
}

int arguments_read(call *c, const command *which, int count, char **words)
{
    size_t kept = 0;
    bool ended = false;
    *c = (call){.command = which};
    for (option o = 0; o < OPTIONS; o++) {
        c->numbers[o] = OPTION_KINDS[o].otherwise;
    }
    for (int i = 0; i < count; i++) {
        if (ended || words[i][0] != '-' || words[i][1] == '\0') {
            words[kept++] = words[i];
        } else if (strcmp(words[i], "--") == 0) {
            ended = true;
        } else if (!read_option(c, count, words, &i)) {
            return called_wrongly(which);
        }
    }
    return read_words(c, kept, words) ? DONE : called_wrongly(which);
}
