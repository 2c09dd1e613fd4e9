// Times the library's calls beside what a user would call instead, and prints Markdown tables.
//
//     peers ROTAS
//
// Every peer is timed twice: with its graph or matrix built in the timed part, and with one that was built before. Answers are compared
// as far as peers have them: the size of a matching, the fewest callouts, the number of plans. A difference ends the program.

#include <cstdio>
#include <memory>
#include <string>

#include <lemon/config.h>

#include "cells.h"
#include "igraph_peer.h"
#include "lemon_peer.h"
#include "pari_peer.h"
#include "rota.h"
#include "turns.h"

namespace {

// A row is timed for so many µs.
const double ROW = 2e6;

uint64_t tally[1 << ROTA_MOST_COUNTED];

#define TABLES n, rota.opens, n, rota.callouts, n

struct FirstPlan {
    static unsigned long answer(size_t n, const bench_rota &rota)
    {
        return n - rota_first_plan(TABLES).shortage;
    }
};

struct FewestCallouts {
    static unsigned long answer(size_t n, const bench_rota &rota)
    {
        const rota_plan_answer a = rota_fewest_callouts(TABLES, UINT32_MAX);
        require(a.code == ROTA_DONE, "there is a plan");
        return a.callouts;
    }
};

struct CountPlans {
    static unsigned long answer(size_t n, const bench_rota &rota)
    {
        return rota_count_plans(TABLES, tally, sizeof tally / sizeof tally[0]).count;
    }
};

struct CountPlansUntallied {
    static unsigned long answer(size_t n, const bench_rota &rota)
    {
        return rota_count_plans_untallied(TABLES).count;
    }
};

// One row: the passes over the first rotas of a family, the library's first.
template <class Call> class Row {
public:
    Row(const bench_family &family, size_t rotas) : n(family.n), rotas(family.rotas, family.rotas + rotas), name(family.name)
    {
        passes.push_back([this](unsigned times) {
            return over_all(times, [this](size_t r) { return Call::answer(n, this->rotas[r]); });
        });
    }
    Row(const Row &) = delete;
    Row &operator=(const Row &) = delete;

    template <class Peer> void beside(const char *peer)
    {
        auto built = std::make_shared<std::vector<std::unique_ptr<Peer>>>();
        for (const bench_rota &rota : rotas) {
            built->push_back(std::make_unique<Peer>(n, rota));
            const auto library = Call::answer(n, rota);
            const auto other = static_cast<unsigned long>(built->back()->answer());
            if (library != other) {
                std::fprintf(stderr, "%s, n = %zu: the library gives %lu, %s %lu\n", name.c_str(), n, library, peer, other);
                std::exit(1);
            }
        }
        passes.push_back([this](unsigned times) {
            return over_all(times, [this](size_t r) { return static_cast<unsigned long>(Peer(n, rotas[r]).answer()); });
        });
        passes.push_back([this, built](unsigned times) {
            return over_all(times, [&built](size_t r) { return static_cast<unsigned long>((*built)[r]->answer()); });
        });
    }

    void print() const
    {
        std::printf("| %zu | %s |", n, name.c_str());
        for (const double us : best_of_turns(passes, ROW)) {
            const double one = us / static_cast<double>(rotas.size());
            std::printf(one < 100 ? " %.2f |" : " %.0f |", one);
        }
        std::printf("\n");
        std::fflush(stdout);
    }

private:
    template <class One> unsigned long over_all(unsigned times, One one) const
    {
        unsigned long sum = 0;
        for (unsigned t = 0; t < times; t++) {
            for (size_t r = 0; r < rotas.size(); r++) {
                sum += one(r);
            }
        }
        return sum;
    }

    size_t n;
    std::vector<bench_rota> rotas;
    std::string name;
    std::vector<Pass> passes;
};

void heading(const char *title, const char *call, const std::vector<const char *> &peers)
{
    std::printf("\n### %s, µs a call\n\n| n | family | %s |", title, call);
    for (const char *peer : peers) {
        std::printf(" %s | built before |", peer);
    }
    std::printf("\n|--:|---|--:|");
    for (size_t k = 0; k < peers.size(); k++) {
        std::printf("--:|--:|");
    }
    std::printf("\n");
}

const char *const DENSE = "dense";
const char *const RANDOM = "random 6 and a plan, random callouts";
const char *const TRIANGLE = "scrambled triangle, random callouts";
const char *const SHORT = "short: random 2";

void matchings(const bench_rotas &all)
{
    heading("A plan", "`first_plan`", {"igraph", "LEMON"});
    for (const size_t n : {20, 64}) {
        for (const char *name : {DENSE, RANDOM, TRIANGLE, SHORT}) {
            const bench_family &family = *bench_find(&all, n, name);
            Row<FirstPlan> row(family, family.count);
            row.beside<IgraphMatching>("igraph");
            row.beside<LemonMatching>("LEMON");
            row.print();
        }
    }
}

void fewest(const bench_rotas &all)
{
    heading("The fewest callouts", "`fewest_callouts`", {"igraph, by weight", "LEMON, perfect matching", "LEMON, network simplex"});
    for (const size_t n : {20, 64}) {
        for (const char *name : {DENSE, RANDOM, TRIANGLE}) {
            const bench_family &family = *bench_find(&all, n, name);
            Row<FewestCallouts> row(family, family.count);
            row.beside<IgraphWeighted>("igraph, by weight");
            row.beside<LemonPerfect>("LEMON, perfect matching");
            row.beside<LemonSimplex>("LEMON, network simplex");
            row.print();
        }
    }
}

template <class Call> void permanents(const bench_rotas &all, const char *title, const char *call)
{
    heading(title, call, {"PARI"});
    for (const size_t n : {12, 16, 20}) {
        for (const char *name : {DENSE, "random 6 and a plan"}) {
            Row<Call> row(*bench_find(&all, n, name), 1);
            row.template beside<PariPermanent>("PARI");
            row.print();
        }
    }
}

} // namespace

int main(int argc, char **argv)
{
    require(argc == 2, "the argument is a file of rotas");
    const bench_rotas all = bench_read(argv[1]);
    PariPermanent::start();
    std::printf("Peers: igraph %s, LEMON %s, PARI %s\n", IGRAPH_VERSION, LEMON_VERSION, PariPermanent::version().c_str());
    matchings(all);
    fewest(all);
    permanents<CountPlans>(all, "The number of plans", "`count_plans`");
    permanents<CountPlansUntallied>(all, "The number of plans without a tally", "`count_plans_untallied`");
    return 0;
}
