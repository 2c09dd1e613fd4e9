#include "json.h"

#include <inttypes.h>
#include <stdio.h>

#include "print.h"

void json_set(uint64_t set)
{
    print_text("[");
    for (unsigned i = 0; set != 0; i++) {
        if (set >> i & 1) {
            set ^= (uint64_t)1 << i;
            printf("%u%s", i, set == 0 ? "" : ", ");
        }
    }
    print_text("]");
}

void json_sets(size_t n, const uint64_t *words)
{
    print_text("[");
    for (size_t i = 0; i < n; i++) {
        print_text(i == 0 ? "" : ", ");
        json_set(words[i]);
    }
    print_text("]");
}

void json_slots(const input *rota, const rota_plan *plan)
{
    print_text("[");
    print_slots(rota, plan, ", ");
    print_text("]");
}

void json_plan(const input *rota, const rota_plan *plan)
{
    print_text("\"plan\": ");
    json_slots(rota, plan);
    print_text(", \"callouts\": ");
    print_number(plan_callouts(rota, plan));
}

void json_refusal(refusal why)
{
    printf("\"refused\": %" PRIu32 ", \"text\": \"%s\", \"items\": ", why.code, rota_code_text(why.code));
    json_set(why.items);
    printf(", \"shortage\": %" PRIu32 ", \"callouts\": %" PRIu32, why.shortage, why.callouts);
}

void json_count(rota_count_answer count)
{
    if (count.code == ROTA_DONE) {
        printf("\"count\": \"%" PRIu64 "\"", count.count);
    } else {
        print_text("\"count\": null");
    }
}

void json_grade(rota_grade_answer grade)
{
    if (grade.code == ROTA_DONE) {
        printf("\"grade\": %" PRIu32, grade.grade);
    } else {
        print_text("\"grade\": null");
    }
}
