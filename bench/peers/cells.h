// The open cells of a rota, item by item, in one order for every peer.
#ifndef CELLS_H
#define CELLS_H

#include <cstdio>
#include <cstdlib>

#include "rotas.h"

// Calls `cell` with the item, the slot and the cell's callouts, 0 or 1.
template <class Cell> void each_cell(size_t n, const bench_rota &rota, Cell cell)
{
    for (size_t i = 0; i < n; i++) {
        for (uint64_t left = rota.opens[i]; left != 0; left &= left - 1) {
            const size_t j = static_cast<size_t>(__builtin_ctzll(left));
            cell(i, j, static_cast<int>(rota.callouts[i] >> j & 1));
        }
    }
}

inline size_t open_cells(size_t n, const bench_rota &rota)
{
    size_t count = 0;
    for (size_t i = 0; i < n; i++) {
        count += static_cast<size_t>(__builtin_popcountll(rota.opens[i]));
    }
    return count;
}

// Ends the program if it does not hold.
inline void require(bool holds, const char *what)
{
    if (!holds) {
        std::fprintf(stderr, "peers: not so: %s\n", what);
        std::exit(1);
    }
}

#endif
