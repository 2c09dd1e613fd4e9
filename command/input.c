#include "input.h"

#include <errno.h>
#include <fcntl.h>
#include <stdio.h>
#include <stdlib.h>
#include <string.h>
#include <unistd.h>

#include "refusals.h"
#include "text.h"

enum { TEXT_MOST = 1048576 };

/* Reads all bytes, but at most one more than a text may have, which is enough to tell that there are too many. */
static bool read_all(input *in, int file)
{
    in->bytes = malloc(TEXT_MOST + 1);
    if (in->bytes == NULL) {
        return false;
    }
    while (in->length <= TEXT_MOST) {
        ssize_t got = read(file, in->bytes + in->length, TEXT_MOST + 1 - in->length);
        if (got == 0) {
            return true;
        }
        if (got > 0) {
            in->length += (size_t)got;
        } else if (errno != EINTR) {
            return false;
        }
    }
    return true;
}

static int load(input *in, const char *path)
{
    bool standard = strcmp(path, "-") == 0;
    *in = (input){.name = standard ? "standard input" : path};
    int file = standard ? STDIN_FILENO : open(path, O_RDONLY);
    if (file < 0) {
        return cannot_read(in->name);
    }
    bool done = read_all(in, file);
    int why = errno;
    if (!standard) {
        close(file);
    }
    errno = why;
    return done ? DONE : cannot_read(in->name);
}

static int check_length(const input *in)
{
    if (in->length <= TEXT_MOST) {
        return DONE;
    }
    fprintf(stderr, "rota: %s: the text has more than 1,048,576 bytes\n", in->name);
    return FAILED;
}

int input_read_text(input *in, const char *path)
{
    int status = load(in, path);
    return status == DONE ? check_length(in) : status;
}

int input_read(input *in, const char *path)
{
    int status = load(in, path);
    if (status != DONE) {
        return status;
    }
    in->text = in->length < 4 || memcmp(in->bytes, "ROTA", 4) != 0;
    if (in->text) {
        status = check_length(in);
        return status == DONE ? text_read(in) : status;
    }
    rota_read_answer answer = rota_read_file(in->bytes, in->length,
                                             in->opens, ROTA_MOST_ITEMS, in->callouts, ROTA_MOST_ITEMS);
    in->n = (size_t)answer.n;
    in->m = in->n; /* a file has a slot for each item */
    in->code = answer.code;
    return answer.code == ROTA_DONE ? DONE : REFUSED;
}

void input_free(input *in)
{
    free(in->bytes);
}
