// PARI: the permanent of a matrix of integers.
#ifndef PARI_PEER_H
#define PARI_PEER_H

#include <string>

#include "rotas.h"

class PariPermanent {
public:
    PariPermanent(size_t n, const bench_rota &rota);
    ~PariPermanent();
    PariPermanent(const PariPermanent &) = delete;
    PariPermanent &operator=(const PariPermanent &) = delete;

    // The permanent, below 2^64.
    unsigned long answer();

    // PARI's stack is made once.
    static void start();
    static std::string version();

private:
    unsigned long before;
    long *matrix;
};

#endif
