/* The command rota: plans and figures of a download rota, from the library. */
#include <errno.h>
#include <signal.h>
#include <stdio.h>
#include <string.h>

#include "arguments.h"
#include "commands.h"
#include "help.h"
#include "refusals.h"

static int general_usage(void)
{
    fputs(GENERAL_USAGE "       rota --help\n", stderr);
    return CALLED_WRONGLY;
}

/* Reads FILE and runs the command on it. */
static int run_on_file(const call *c)
{
    input rota;
    int status = input_read(&rota, c->file);
    if (status == DONE) {
        status = c->command->run(c, &rota);
    } else if (status == REFUSED) {
        refuse(c, rota.name, (refusal){.code = rota.code}, rota.more);
        if (c->command->traits & ADVISES) {
            fprintf(stderr, "rota: %s\n", advice(rota.code));
        }
    }
    input_free(&rota);
    return status;
}

static int run(const command *which, int count, char **words)
{
    call c;
    if (asks_for_help(count, words)) {
        help_of(which);
        return DONE;
    }
    int status = arguments_read(&c, which, count, words);
    if (status != DONE) {
        return status;
    }
    return which->traits & TAKES_FILE ? run_on_file(&c) : which->run(&c, NULL);
}

static int dispatch(int count, char **words)
{
    if (count < 2) {
        return general_usage();
    }
    const char *name = words[1];
    bool version = strcmp(name, "--version") == 0;
    if (version || strcmp(name, "--help") == 0 || strcmp(name, "-h") == 0 || strcmp(name, "help") == 0) {
        if (count > 2) {
            fprintf(stderr, "rota: too many arguments are given\n");
            return general_usage();
        }
        if (version) {
            puts("rota " ROTA_VERSION);
        } else {
            help();
        }
        return DONE;
    }
    const command *which = command_named(name);
    if (which == NULL) {
        fprintf(stderr, "rota: there is no command '%s'\n", name);
        return general_usage();
    }
    return run(which, count - 2, words + 2);
}

/* The exit status: the given one, or another if something was not written. */
static int finish(int status)
{
    bool failed = fflush(stdout) != 0 || ferror(stdout);
    /* It may have been closed from the start; this is no failure if there was nothing to write. */
    failed = (fclose(stdout) != 0 && errno != EBADF) || failed;
    if (failed) {
        fputs("rota: can't write to standard output\n", stderr);
    }
    return failed ? FAILED : status;
}

int main(int argc, char **argv)
{
    signal(SIGXFSZ, SIG_IGN); /* a write beyond the limit of a file's length fails as any other does */
    return finish(dispatch(argc, argv));
}
