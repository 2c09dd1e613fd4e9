/* Exit statuses, refusals in words, and the messages of files that can't be read or written. */
#ifndef REFUSALS_H
#define REFUSALS_H

#include <stdint.h>

#include "command.h"
#include "rota.h"

enum { DONE = 0, REFUSED = 1, CALLED_WRONGLY = 2, FAILED = 3 };

/* What a refused call brings; all but the code may be 0. */
typedef struct {
    uint32_t code;
    uint32_t shortage;
    uint64_t items;
    uint32_t callouts;
} refusal;

/*
 * The longest text is "refused 9: there is no complete plan; items 0, 1, ... 62 and 63 are short by 64 slots", below
 * 320 bytes.
 */
enum { WORDS_ROOM = 512 };

/* As in "items 0, 1 and 4 are short by 2 slots". Room: WORDS_ROOM. */
void shortage_words(char *out, uint64_t items, uint32_t shortage);

/* As in "refused 9: there is no complete plan; item 0 is short by 1 slot". Room: WORDS_ROOM. */
void refusal_words(char *out, refusal why);

/* The value, or with another code than ROTA_DONE the refusal. Room: WORDS_ROOM. */
void value_words(char *out, uint64_t value, refusal why);

/* Tells a refusal, and more after it, and returns the exit status. The name and more may be empty. */
int refuse(const call *c, const char *name, refusal why, const char *more);

int refuse_plan(const call *c, const input *rota, rota_plan_answer answer);

/* What to do about a refusal of a rota; empty for other numbers. */
const char *advice(uint32_t code);

/* Both say why by errno, and return the exit status. */
int cannot_read(const char *name);
int cannot_write(const char *name);

#endif
