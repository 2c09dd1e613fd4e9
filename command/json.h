/* Parts of the answers in JSON, on standard output. */
#ifndef JSON_H
#define JSON_H

#include <stddef.h>
#include <stdint.h>

#include "input.h"
#include "refusals.h"
#include "rota.h"

/* As in [0, 1]: the bits that are set. */
void json_set(uint64_t set);

/* As in [[0, 1], [], [2]]: a set for each word. */
void json_sets(size_t n, const uint64_t *words);

/* As in [0, 1, 2]. */
void json_slots(const input *rota, const rota_plan *plan);

/* As in "plan": [0, 1, 2], "callouts": 2. */
void json_plan(const input *rota, const rota_plan *plan);

/* As in "refused": 9, "text": "there is no complete plan", "items": [0, 1], "shortage": 1, "callouts": 0. */
void json_refusal(refusal why);

/* As in "count": "3", "grade": 3; null if refused. */
void json_count(rota_count_answer count);
void json_grade(rota_grade_answer grade);

#endif
