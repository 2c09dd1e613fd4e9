// igraph: a maximum bipartite matching, plain and by weight. Vertices 0 to n - 1 are items, n to 2n - 1 slots.
#ifndef IGRAPH_PEER_H
#define IGRAPH_PEER_H

#include <igraph/igraph.h>

#include "rotas.h"

class IgraphMatching {
public:
    IgraphMatching(size_t n, const bench_rota &rota);
    ~IgraphMatching();
    IgraphMatching(const IgraphMatching &) = delete;
    IgraphMatching &operator=(const IgraphMatching &) = delete;

    // The size of a maximum matching.
    long answer();

protected:
    igraph_t graph;
    igraph_vector_bool_t is_slot;
    igraph_vector_int_t matching;
};

class IgraphWeighted : public IgraphMatching {
public:
    IgraphWeighted(size_t n, const bench_rota &rota);
    ~IgraphWeighted();

    // The fewest callouts, of a rota that has a plan. A cell weighs n + 1, a callout n: then the heaviest matching is complete.
    long answer();

private:
    long n;
    igraph_vector_t weights;
};

#endif
