/* The rotas that `bench rotas` writes, for the programs in C and C++: the same ones that the Rust program times. */
#ifndef BENCH_ROTAS_H
#define BENCH_ROTAS_H

#include <stddef.h>
#include <stdint.h>

#ifdef __cplusplus
extern "C" {
#endif

typedef struct {
    uint64_t opens[64];
    uint64_t callouts[64];
} bench_rota;

typedef struct {
    size_t n;
    size_t count;
    char name[64];
    bench_rota *rotas;
} bench_family;

typedef struct {
    size_t count;
    bench_family *families;
} bench_rotas;

/* Reads the file; ends the program if it is not as it should be. */
bench_rotas bench_read(const char *path);

/* The family of n items of that name; ends the program if there is none. */
const bench_family *bench_find(const bench_rotas *all, size_t n, const char *name);

#ifdef __cplusplus
}
#endif

#endif
