/* A file's bytes replaced, wholly or not at all. */
#ifndef REPLACE_H
#define REPLACE_H

#include <stdbool.h>
#include <stddef.h>
#include <stdint.h>

/*
 * Writes a new file beside the one at path, and renames it over that one; a symbolic link is followed first. Returns
 * false if this fails, and errno says why; then the old file is as it was, and the new one is removed.
 */
bool replace(const char *path, const uint8_t *bytes, size_t length);

#endif
