#include "print.h"

#include <stdio.h>

void print_text(const char *text)
{
    for (; *text != '\0'; text++) {
        putchar_unlocked(*text);
    }
}

void print_number(uint64_t number)
{
    char digits[20]; /* as many as 2^64 - 1 has */
    size_t at = sizeof digits;
    do {
        digits[--at] = (char)('0' + number % 10);
        number /= 10;
    } while (number != 0);
    while (at < sizeof digits) {
        putchar_unlocked(digits[at++]);
    }
}

void print_slots(const input *rota, const rota_plan *plan, const char *between)
{
    for (size_t i = 0; i < rota->n; i++) {
        print_text(i == 0 ? "" : between);
        print_number(plan->slots[i]);
    }
}

void print_plan(const input *rota, const rota_plan *plan)
{
    print_slots(rota, plan, " ");
    print_text(" / ");
    print_number(plan_callouts(rota, plan));
    print_text("\n");
}

unsigned plan_callouts(const input *rota, const rota_plan *plan)
{
    unsigned callouts = 0;
    for (size_t i = 0; i < rota->n; i++) {
        callouts += (unsigned)(rota->callouts[i] >> plan->slots[i] & 1);
    }
    return callouts;
}
