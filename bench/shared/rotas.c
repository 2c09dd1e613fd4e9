#include "rotas.h"

#include <inttypes.h>
#include <stdio.h>
#include <stdlib.h>
#include <string.h>

static void fail(const char *what, const char *which)
{
    fprintf(stderr, "%s: %s\n", which, what);
    exit(1);
}

static void read_words(FILE *file, const char *path, uint64_t *words, size_t n)
{
    for (size_t i = 0; i < n; i++) {
        if (fscanf(file, "%" SCNx64, &words[i]) != 1) {
            fail("a word is missing", path);
        }
    }
}

static void read_family(FILE *file, const char *path, bench_family *family)
{
    if (family->n == 0 || family->n > 64 || family->count == 0) {
        fail("a family of no rotas, or of a wrong size", path);
    }
    family->rotas = (bench_rota *)calloc(family->count, sizeof(bench_rota));
    if (family->rotas == NULL) {
        fail("no memory", path);
    }
    for (size_t r = 0; r < family->count; r++) {
        read_words(file, path, family->rotas[r].opens, family->n);
        read_words(file, path, family->rotas[r].callouts, family->n);
    }
}

bench_rotas bench_read(const char *path)
{
    enum { ROOM = 256 };
    bench_rotas all = {0, (bench_family *)calloc(ROOM, sizeof(bench_family))};
    FILE *file = fopen(path, "r");
    if (file == NULL || all.families == NULL) {
        fail("can't be read", path);
    }
    for (;;) {
        bench_family family;
        int got = fscanf(file, "%zu %zu %63[^\n]", &family.n, &family.count, family.name);
        if (got == EOF) {
            break;
        }
        if (got != 3 || all.count == ROOM) {
            fail("a family's line is wrong", path);
        }
        read_family(file, path, &family);
        all.families[all.count++] = family;
    }
    fclose(file);
    return all;
}

const bench_family *bench_find(const bench_rotas *all, size_t n, const char *name)
{
    for (size_t f = 0; f < all->count; f++) {
        if (all->families[f].n == n && strcmp(all->families[f].name, name) == 0) {
            return &all->families[f];
        }
    }
    fail("no such family", name);
    return NULL;
}
