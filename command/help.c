#include "help.h"

#include <stdio.h>
#include <string.h>

#include "arguments.h"
#include "commands.h"

static const char STATUS[] =
    "\n"
    "Exit status:\n"
    "  0  done\n"
    "  1  refused by a number of the library; standard error says why\n"
    "  2  called wrongly\n"
    "  3  a file can't be read or written, or a text or sheet is none\n";

static const char INPUTS[] =
    "\n"
    "FILE is a rota file or a text; - is standard input. A text has a line for each\n"
    "item and in it a character for each slot: . closed, o open, C open and a\n"
    "callout. # begins a comment.\n"
    "\n"
    "Commands:\n";

void help(void)
{
    printf(GENERAL_USAGE "%s", INPUTS);
    for (size_t i = 0; i < COMMANDS_COUNT; i++) {
        printf("  %-8s %s\n", COMMANDS[i].name, COMMANDS[i].summary);
    }
    printf("\nrota COMMAND --help says more of a command, rota --version gives the version.\n%s", STATUS);
}

static void help_option(const char *name, const char *value, const char *summary)
{
    printf("  %s %-*s  %s\n", name, 12 - (int)strlen(name), value, summary); /* the longest is --sheet SHEET */
}

void help_of(const command *which)
{
    printf("usage: %s\n\n%s\nOptions:\n", which->usage, which->about);
    for (option o = 0; o < OPTIONS; o++) {
        if (which->options >> o & 1) {
            const option_kind *kind = &OPTION_KINDS[o];
            help_option(kind->name, kind->value == NULL ? "" : kind->value, kind->summary);
        }
    }
    help_option("--help", "", "this text");
    fputs(STATUS, stdout);
}
