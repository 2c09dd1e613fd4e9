#include "convert.h"

#include <stdio.h>

#include "refusals.h"
#include "text.h"

int run_text(const call *c, const input *rota)
{
    (void)c;
    text_write(rota->n, rota->m, rota->opens, rota->callouts);
    return DONE;
}

int run_file(const call *c, const input *rota)
{
    uint8_t file[ROTA_FILE_BYTES];
    rota_write_answer answer = rota_write_file(TABLES(rota), file, sizeof file);
    if (answer.code != ROTA_DONE) {
        return refuse(c, rota->name, (refusal){.code = answer.code}, "");
    }
    fwrite(file, 1, (size_t)answer.bytes, stdout);
    return DONE;
}

int run_new(const call *c, const input *rota)
{
    (void)rota;
    static const uint64_t CLOSED[ROTA_MOST_ITEMS] = {0};
    uint64_t n = c->arguments[0], m = n;
    if (n < 1 || n > ROTA_MOST_ITEMS) {
        return refuse(c, "", (refusal){.code = ROTA_BAD_N}, "");
    }
    puts("# a line is an item, a character its cell with a slot: . closed, o open, C open and a callout");
    text_write((size_t)n, (size_t)m, CLOSED, CLOSED);
    return DONE;
}
