#define _XOPEN_SOURCE 700 /* for realpath */

#include "replace.h"

#include <errno.h>
#include <fcntl.h>
#include <stdio.h> /* for rename */
#include <stdlib.h>
#include <string.h>
#include <sys/stat.h>
#include <unistd.h>

static bool write_all(int file, const uint8_t *bytes, size_t length)
{
    while (length > 0) {
        ssize_t written = write(file, bytes, length);
        if (written >= 0) {
            bytes += written;
            length -= (size_t)written;
        } else if (errno != EINTR) {
            return false;
        }
    }
    return true;
}

static bool flush(int file)
{
    int failed;
    do {
        failed = fsync(file);
    } while (failed != 0 && errno == EINTR);
    return failed == 0;
}

/* Owner and group stay if the caller may give them, else the group alone, else neither; this is no failure. */
static void keep_owner(int file, const struct stat *old)
{
    bool kept = fchown(file, old->st_uid, old->st_gid) == 0 || fchown(file, (uid_t)-1, old->st_gid) == 0;
    (void)kept;
}

/* As replace, for a path without symbolic links; beside is a name for mkstemp in the same folder. */
static bool replace_with(const char *path, char *beside, const uint8_t *bytes, size_t length)
{
    struct stat old;
    if (stat(path, &old) != 0 || faccessat(AT_FDCWD, path, W_OK, AT_EACCESS) != 0) {
        return false;
    }
    if (!S_ISREG(old.st_mode)) {
        errno = ENOTSUP; /* a pipe or a device would be lost */
        return false;
    }
    int file = mkstemp(beside);
    if (file < 0) {
        return false;
    }
    keep_owner(file, &old);
    bool done = fchmod(file, old.st_mode & 0777) == 0 && write_all(file, bytes, length) && flush(file);
    int why = errno;
    if (close(file) != 0 && done) {
        done = false;
        why = errno;
    }
    if (done && rename(beside, path) == 0) {
        return true;
    }
    why = done ? errno : why;
    unlink(beside);
    errno = why;
    return false;
}

/* A name for mkstemp in the folder of a path, which has a stroke; NULL without memory. */
static char *name_beside(const char *path)
{
    static const char NAME[] = ".rota-XXXXXX";
    size_t folder = (size_t)(strrchr(path, '/') - path) + 1;
    char *name = malloc(folder + sizeof NAME);
    if (name != NULL) {
        memcpy(name, path, folder);
        memcpy(name + folder, NAME, sizeof NAME);
    }
    return name;
}

bool replace(const char *path, const uint8_t *bytes, size_t length)
{
    char *real = realpath(path, NULL);
    char *beside = real == NULL ? NULL : name_beside(real);
    bool done = beside != NULL && replace_with(real, beside, bytes, length);
    int why = errno;
    free(beside);
    free(real);
    errno = why;
    return done;
}
