#include "lemon_peer.h"

#include <lemon/matching.h>
#include <lemon/network_simplex.h>

#include "cells.h"

using lemon::SmartDigraph;
using lemon::SmartGraph;

template <class Graph> static void add_nodes(Graph &graph, size_t n)
{
    graph.reserveNode(static_cast<int>(2 * n));
    for (size_t k = 0; k < 2 * n; k++) {
        graph.addNode();
    }
}

LemonCells::LemonCells(size_t n, const bench_rota &rota)
{
    add_nodes(graph, n);
    graph.reserveEdge(static_cast<int>(open_cells(n, rota)));
    each_cell(n, rota, [&](size_t item, size_t slot, int) {
        graph.addEdge(graph.nodeFromId(static_cast<int>(item)), graph.nodeFromId(static_cast<int>(n + slot)));
    });
}

LemonArcs::LemonArcs(size_t n, const bench_rota &rota)
{
    add_nodes(graph, n);
    graph.reserveArc(static_cast<int>(open_cells(n, rota)));
    each_cell(n, rota, [&](size_t item, size_t slot, int) {
        graph.addArc(graph.nodeFromId(static_cast<int>(item)), graph.nodeFromId(static_cast<int>(n + slot)));
    });
}

LemonMatching::LemonMatching(size_t n, const bench_rota &rota) : LemonCells(n, rota)
{
}

long LemonMatching::answer()
{
    lemon::MaxMatching<SmartGraph> matching(graph);
    matching.run();
    return matching.matchingSize();
}

LemonPerfect::LemonPerfect(size_t n, const bench_rota &rota) : LemonCells(n, rota), weights(graph)
{
    int edge = 0;
    each_cell(n, rota, [&](size_t, size_t, int callouts) { weights[graph.edgeFromId(edge++)] = -callouts; });
}

long LemonPerfect::answer()
{
    lemon::MaxWeightedPerfectMatching<SmartGraph> matching(graph, weights);
    require(matching.run(), "LEMON finds a perfect matching");
    return -matching.matchingWeight();
}

LemonSimplex::LemonSimplex(size_t n, const bench_rota &rota) : LemonArcs(n, rota), costs(graph), supplies(graph)
{
    int arc = 0;
    each_cell(n, rota, [&](size_t, size_t, int callouts) { costs[graph.arcFromId(arc++)] = callouts; });
    for (size_t k = 0; k < 2 * n; k++) {
        supplies[graph.nodeFromId(static_cast<int>(k))] = k < n ? 1 : -1;
    }
}

long LemonSimplex::answer()
{
    using Simplex = lemon::NetworkSimplex<SmartDigraph>;
    Simplex simplex(graph);
    simplex.costMap(costs).supplyMap(supplies);
    require(simplex.run() == Simplex::OPTIMAL, "LEMON finds a flow");
    return simplex.totalCost();
}
