// LEMON: a maximum matching of a general graph (it has none for bipartite ones alone), a perfect matching of greatest weight, and a flow
// of least cost by the network simplex. Nodes 0 to n - 1 are items, n to 2n - 1 slots.
#ifndef LEMON_PEER_H
#define LEMON_PEER_H

#include <lemon/smart_graph.h>

#include "rotas.h"

// An edge for each open cell.
struct LemonCells {
    LemonCells(size_t n, const bench_rota &rota);
    lemon::SmartGraph graph;
};

// An arc from item to slot for each open cell.
struct LemonArcs {
    LemonArcs(size_t n, const bench_rota &rota);
    lemon::SmartDigraph graph;
};

class LemonMatching : LemonCells {
public:
    LemonMatching(size_t n, const bench_rota &rota);

    // The size of a maximum matching.
    long answer();
};

class LemonPerfect : LemonCells {
public:
    LemonPerfect(size_t n, const bench_rota &rota);

    // The fewest callouts, of a rota that has a plan: a callout weighs -1.
    long answer();

private:
    lemon::SmartGraph::EdgeMap<int> weights;
};

class LemonSimplex : LemonArcs {
public:
    LemonSimplex(size_t n, const bench_rota &rota);

    // The fewest callouts, of a rota that has a plan: one leaves each item and reaches each slot, and a callout costs 1.
    long answer();

private:
    lemon::SmartDigraph::ArcMap<int> costs;
    lemon::SmartDigraph::NodeMap<int> supplies;
};

#endif
