#include "pari_peer.h"

#include <pari/pari.h>

#include "cells.h"

void PariPermanent::start()
{
    pari_init(64 * 1024 * 1024, 2);
}

std::string PariPermanent::version()
{
    const auto part = [](int shift) { return std::to_string(paricfg_version_code >> shift & 255); };
    return part(16) + "." + part(8) + "." + part(0);
}

PariPermanent::PariPermanent(size_t n, const bench_rota &rota)
    : before(avma), matrix(zeromatcopy(static_cast<long>(n), static_cast<long>(n)))
{
    each_cell(n, rota, [&](size_t item, size_t slot, int) {
        gcoeff(matrix, static_cast<long>(item + 1), static_cast<long>(slot + 1)) = gen_1;
    });
}

// What was made last goes first.
PariPermanent::~PariPermanent()
{
    set_avma(before);
}

unsigned long PariPermanent::answer()
{
    const pari_sp here = avma;
    const unsigned long permanent = itou(matpermanent(matrix));
    set_avma(here);
    return permanent;
}
