/*
 * The sheet program: the plan sheet of a rota file. The usage text below says what it writes. To build it, in the repository's
 * root, after tools/staticlib:
 *
 *     gcc -Iinclude examples/sheet.c target/staticlib/librota.a -o sheet
 *
 * Three calls do the work: one reads the file's tables, one finds the plan, and one writes its sheet to a page.
 */
#include <errno.h>
#include <stdio.h>
#include <string.h>

#include "rota.h"

#define CALL "usage: sheet FILE\n"

static const char USAGE[] = CALL
    "\n"
    "Writes the plan sheet of the rota file FILE, for the wall of a yard: the first of the plans with the fewest callouts.\n"
    "Below the heading each item has a line with its number (IT), its slot (SL) and a C if this is a callout.\n"
    "\n"
    "Exit status:\n"
    "  0  the sheet is given\n"
    "  1  the file is refused, or it has no plan; standard error says why\n"
    "  2  the program is called wrongly, or FILE can't be read, or the sheet can't be written\n";

/* Writes why the file is refused, and who is short, as in "items 0, 1 and 4 are short by 2 slots". Returns the exit status. */
static int refuse(const char *name, uint32_t code, uint64_t items, uint32_t shortage)
{
    fprintf(stderr, "sheet: %s: refused %lu: %s", name, (unsigned long)code, rota_code_text(code));
    if (items != 0) {
        bool one = (items & (items - 1)) == 0;
        fputs(one ? "; item " : "; items ", stderr);
        for (unsigned i = 0; items != 0; i++) {
            if (items >> i & 1) {
                items &= items - 1; /* those after i */
                fprintf(stderr, "%u%s", i, items == 0 ? "" : (items & (items - 1)) == 0 ? " and " : ", ");
            }
        }
        fprintf(stderr, " %s short by %lu slot%s", one ? "is" : "are", (unsigned long)shortage, shortage == 1 ? "" : "s");
    }
    fputc('\n', stderr);
    return 1;
}

/* Writes all that goes to standard output, and returns the exit status. */
static int finish(const void *text, size_t length)
{
    size_t written = fwrite(text, 1, length, stdout);
    if (fclose(stdout) != 0 || written != length) {
        fputs("sheet: can't write to standard output\n", stderr);
        return 2;
    }
    return 0;
}

/* Writes the sheet of a file that was read, and returns the exit status. */
static int show_sheet(const char *name, const uint8_t *file, size_t length)
{
    uint64_t opens[ROTA_MOST_ITEMS], callouts[ROTA_MOST_ITEMS];
    rota_read_answer read = rota_read_file(file, length, opens, ROTA_MOST_ITEMS, callouts, ROTA_MOST_ITEMS);
    if (read.code != ROTA_DONE) {
        return refuse(name, read.code, 0, 0);
    }
    size_t n = (size_t)read.n;
    /* No plan has more callouts than items, so none is over this cap. */
    rota_plan_answer best = rota_fewest_callouts(n, opens, n, callouts, n, ROTA_MOST_ITEMS);
    if (best.code != ROTA_DONE) {
        return refuse(name, best.code, best.items, best.shortage);
    }
    uint8_t page[ROTA_SHEET_BYTES];
    uint32_t code = rota_plan_sheet(n, opens, n, callouts, n, best.plan, page, sizeof page);
    if (code != ROTA_DONE) {
        return refuse(name, code, 0, 0);
    }
    return finish(page, (n + 1) * ROTA_LINE_BYTES);
}

/* Reads a file as far as there is room; returns false, and errno says why, if it can't be read. */
static bool read_bytes(const char *name, uint8_t *bytes, size_t room, size_t *length)
{
    FILE *stream = fopen(name, "rb");
    if (stream == NULL) {
        return false;
    }
    *length = fread(bytes, 1, room, stream);
    int failed = ferror(stream), why = errno;
    fclose(stream);
    errno = why;
    return !failed;
}

int main(int argc, char **argv)
{
    uint8_t file[ROTA_FILE_BYTES + 1]; /* one byte more than the longest has, so that a longer one is told */
    size_t length;

    if (argc == 2 && (strcmp(argv[1], "--help") == 0 || strcmp(argv[1], "-h") == 0)) {
        return finish(USAGE, sizeof USAGE - 1);
    }
    if (argc != 2) {
        fputs(CALL, stderr);
        return 2;
    }
    if (!read_bytes(argv[1], file, sizeof file, &length)) {
        fprintf(stderr, "sheet: can't read %s: %s\n", argv[1], strerror(errno));
        return 2;
    }
    return show_sheet(argv[1], file, length);
}
