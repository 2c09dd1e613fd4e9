/* The parts of the header's test, and what they share. */
#ifndef PARTS_H
#define PARTS_H

#include "rota.h"

#ifdef __cplusplus
extern "C" {
#endif

/* T, the example of docs/RULES.md. */
extern const uint64_t OPENS[3], CALLOUTS[3];
#define T 3, OPENS, 3, CALLOUTS, 3

/* Ends the program if the condition does not hold. */
#define EXPECT(condition) expect(condition, #condition, __FILE__, __LINE__)
void expect(bool holds, const char *what, const char *file, int line);

/* A plan of three items; the blank plan. */
rota_plan plan(uint8_t a, uint8_t b, uint8_t c);
rota_plan blank(void);
bool same(rota_plan a, rota_plan b);

/* Whether the answer has this code, plan and callouts, with nobody short. */
bool gives(rota_plan_answer a, uint32_t code, rota_plan p, uint32_t callouts);

/* constants.c */
void constants(void);
void texts(void);

/* lent.c */
void no_buffers(void);
void overlapping_inputs(void);

#ifdef __cplusplus
}
#endif

#endif
