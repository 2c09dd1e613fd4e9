#include "igraph_peer.h"

#include "cells.h"

IgraphMatching::IgraphMatching(size_t n, const bench_rota &rota)
{
    igraph_vector_int_t edges;
    size_t end = 0;
    igraph_vector_int_init(&edges, static_cast<igraph_integer_t>(2 * open_cells(n, rota)));
    each_cell(n, rota, [&](size_t item, size_t slot, int) {
        VECTOR(edges)[end++] = static_cast<igraph_integer_t>(item);
        VECTOR(edges)[end++] = static_cast<igraph_integer_t>(n + slot);
    });
    igraph_create(&graph, &edges, static_cast<igraph_integer_t>(2 * n), IGRAPH_UNDIRECTED);
    igraph_vector_int_destroy(&edges);
    igraph_vector_bool_init(&is_slot, static_cast<igraph_integer_t>(2 * n));
    for (size_t j = 0; j < n; j++) {
        VECTOR(is_slot)[n + j] = true;
    }
    igraph_vector_int_init(&matching, 0);
}

IgraphMatching::~IgraphMatching()
{
    igraph_vector_int_destroy(&matching);
    igraph_vector_bool_destroy(&is_slot);
    igraph_destroy(&graph);
}

long IgraphMatching::answer()
{
    igraph_integer_t size = 0;
    igraph_maximum_bipartite_matching(&graph, &is_slot, &size, nullptr, &matching, nullptr, 0);
    return static_cast<long>(size);
}

IgraphWeighted::IgraphWeighted(size_t items, const bench_rota &rota) : IgraphMatching(items, rota), n(static_cast<long>(items))
{
    size_t edge = 0;
    igraph_vector_init(&weights, static_cast<igraph_integer_t>(open_cells(items, rota)));
    each_cell(items, rota, [&](size_t, size_t, int callouts) {
        VECTOR(weights)[edge++] = static_cast<igraph_real_t>(n + 1 - callouts);
    });
}

IgraphWeighted::~IgraphWeighted()
{
    igraph_vector_destroy(&weights);
}

long IgraphWeighted::answer()
{
    igraph_real_t weight = 0;
    igraph_maximum_bipartite_matching(&graph, &is_slot, nullptr, &weight, &matching, &weights, 0);
    return n * (n + 1) - static_cast<long>(weight);
}
