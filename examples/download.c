/*
 * The download program: a rota file's first plan, the next one, and the plan with the fewest callouts. The usage text below says
 * what it writes. To build it, in the repository's root, after tools/staticlib:
 *
 *     gcc -Iinclude examples/download.c target/staticlib/librota.a -o download
 *
 * The plans come from the three calls that take a file's bytes and a plan buffer. The file's tables say how many callouts a plan
 * has, who is short if there is none, and how many callouts there must be.
 */
#include <ctype.h>
#include <errno.h>
#include <stdint.h>
#include <stdio.h>
#include <stdlib.h>
#include <string.h>

#include "rota.h"

static const char CALL[] = "usage: download FILE [CAP]\n";

static const char USAGE[] =
    "\n"
    "Shows the first plan of the rota file FILE, the next plan, and the first of the plans with the fewest callouts.\n"
    "CAP is the most callouts that this last plan may have, 0 to 4294967295; without it any number will do. A line has\n"
    "the slots of items 0 upward and, after the stroke, the plan's callouts. If no complete plan follows the first one,\n"
    "the second line says so; this is no failure.\n"
    "\n"
    "Exit status:\n"
    "  0  the first plan and the one with the fewest callouts are given\n"
    "  1  the file or one of these two plans is refused; standard error says why\n"
    "  2  the program is called wrongly, or FILE can't be read, or the plans can't be written\n";

/* A rota file's bytes, one more than the longest has so that a longer one is told, and the rota in it. */
typedef struct {
    const char *name;
    uint8_t bytes[ROTA_FILE_BYTES + 1];
    size_t length;
    size_t n;
    uint64_t opens[ROTA_MOST_ITEMS];
    uint64_t callouts[ROTA_MOST_ITEMS];
} rota;

/* Writes a plan's line. */
static void show(const char *title, const rota *r, const uint8_t *plan)
{
    unsigned callouts = 0;
    printf("%s:", title);
    for (size_t i = 0; i < r->n; i++) {
        printf(" %u", (unsigned)plan[i]);
        callouts += (unsigned)(r->callouts[i] >> plan[i] & 1);
    }
    printf(" / %u\n", callouts);
}

/* Writes which items are short, as in "items 0, 1 and 4 are short by 2 slots". */
static void show_shortage(uint64_t items, uint32_t shortage)
{
    unsigned left = 0;
    for (uint64_t rest = items; rest != 0; rest &= rest - 1) {
        left++;
    }
    const char *verb = left == 1 ? "is" : "are";
    fputs(left == 1 ? "; item " : "; items ", stderr);
    for (unsigned i = 0; i < ROTA_MOST_ITEMS; i++) {
        if (items >> i & 1) {
            left--;
            fprintf(stderr, "%u%s", i, left > 1 ? ", " : left == 1 ? " and " : "");
        }
    }
    fprintf(stderr, " %s short by %lu slot%s", verb, (unsigned long)shortage, shortage == 1 ? "" : "s");
}

/* Writes why the file or a plan is refused, and returns the exit status. */
static int refuse(const rota *r, const char *what, uint32_t code, uint32_t cap)
{
    fflush(stdout); /* what was given stands before the refusal */
    fprintf(stderr, "download: %s: %srefused %lu: %s", r->name, what, (unsigned long)code, rota_code_text(code));
    if (code == ROTA_NO_PLAN) {
        rota_plan_answer none = rota_first_plan(r->n, r->opens, r->n, r->callouts, r->n);
        show_shortage(none.items, none.shortage);
    } else if (code == ROTA_OVER_CAP) {
        rota_plan_answer over = rota_fewest_callouts(r->n, r->opens, r->n, r->callouts, r->n, cap);
        fprintf(stderr, "; the fewest are %lu, the cap is %lu", (unsigned long)over.callouts, (unsigned long)cap);
    }
    fputc('\n', stderr);
    return 1;
}

/* Writes the three plans of a file that was read, and returns the exit status. */
static int show_plans(const rota *r, uint32_t cap)
{
    uint8_t plan[ROTA_MOST_ITEMS];
    uint32_t code = rota_file_first_plan(r->bytes, r->length, plan, sizeof plan);
    if (code != ROTA_DONE) {
        return refuse(r, "first plan ", code, cap);
    }
    show("first plan", r, plan);
    /* The buffer holds the first plan, and now gets the one after it. */
    code = rota_file_next_plan(r->bytes, r->length, plan, sizeof plan);
    if (code == ROTA_NO_FURTHER_PLAN) {
        puts("next plan: none, the first plan is the only one");
    } else if (code != ROTA_DONE) {
        return refuse(r, "next plan ", code, cap);
    } else {
        show("next plan", r, plan);
    }
    code = rota_file_fewest_callouts(r->bytes, r->length, plan, sizeof plan, cap);
    if (code != ROTA_DONE) {
        return refuse(r, "fewest callouts ", code, cap);
    }
    show("fewest callouts", r, plan);
    return 0;
}

/* Reads a decimal number of 32 bits; returns 0 if the text is none. */
static int read_cap(const char *text, uint32_t *cap)
{
    char *end;
    if (!isdigit((unsigned char)text[0])) {
        return 0;
    }
    errno = 0;
    unsigned long value = strtoul(text, &end, 10);
    if (errno != 0 || *end != '\0' || value > UINT32_MAX) {
        return 0;
    }
    *cap = (uint32_t)value;
    return 1;
}

/* Reads a file of any length, as far as there is room; returns 0, and errno says why, if it can't be read. */
static int read_bytes(rota *r)
{
    FILE *stream = fopen(r->name, "rb");
    if (stream == NULL) {
        return 0;
    }
    r->length = fread(r->bytes, 1, sizeof r->bytes, stream);
    int failed = ferror(stream), why = errno;
    fclose(stream);
    errno = why;
    return !failed;
}

/* The exit status: the given one, or 2 if something was not written. */
static int finish(int status)
{
    int failed = ferror(stdout);
    if (fclose(stdout) != 0 || failed) {
        fputs("download: can't write to standard output\n", stderr);
        return 2;
    }
    return status;
}

int main(int argc, char **argv)
{
    static rota r;
    uint32_t cap = UINT32_MAX;

    if (argc == 2 && (strcmp(argv[1], "--help") == 0 || strcmp(argv[1], "-h") == 0)) {
        fputs(CALL, stdout);
        fputs(USAGE, stdout);
        return finish(0);
    }
    if (argc < 2 || argc > 3) {
        fputs(CALL, stderr);
        return 2;
    }
    if (argc == 3 && !read_cap(argv[2], &cap)) {
        fprintf(stderr, "download: the cap is no number from 0 to 4294967295: %s\n%s", argv[2], CALL);
        return 2;
    }
    r.name = argv[1];
    if (!read_bytes(&r)) {
        fprintf(stderr, "download: can't read %s: %s\n", r.name, strerror(errno));
        return 2;
    }
    rota_read_answer read = rota_read_file(r.bytes, r.length, r.opens, ROTA_MOST_ITEMS, r.callouts, ROTA_MOST_ITEMS);
    if (read.code != ROTA_DONE) {
        return refuse(&r, "", read.code, cap);
    }
    r.n = (size_t)read.n;
    return finish(show_plans(&r, cap));
}
