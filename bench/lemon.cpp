// LEMON: its search from each source on a StaticDigraph, with two of its heaps.
#include "plan_links.hpp"

#include <lemon/bin_heap.h>
#include <lemon/config.h>
#include <lemon/dijkstra.h>
#include <lemon/quad_heap.h>
#include <lemon/static_graph.h>

#include <iterator>
#include <memory>
#include <utility>

namespace {

using Graph = lemon::StaticDigraph;
using Costs = Graph::ArcMap<std::uint64_t>;
using Numbers = Graph::NodeMap<int>;

// A plan as a graph, with places for a row of labels and of last links for each source.
struct Plan {
    Graph graph;
    std::unique_ptr<Costs> costs;
    std::vector<std::unique_ptr<Graph::NodeMap<std::uint64_t>>> labels;
    std::vector<std::unique_ptr<Graph::NodeMap<Graph::Arc>>> last_links;
};

std::unique_ptr<Plan> plan;

template <class Heap> void work_table()
{
    using Search = typename lemon::Dijkstra<Graph, Costs>::template SetStandardHeap<Heap>::Create;
    Search search(plan->graph, *plan->costs);
    for (int source = 0; source < plan->graph.nodeNum(); source++) {
        search.distMap(*plan->labels[source]).predMap(*plan->last_links[source]);
        search.run(plan->graph.node(source));
    }
}

void run_bin_heap() { work_table<lemon::BinHeap<std::uint64_t, Numbers>>(); }
void run_quad_heap() { work_table<lemon::QuadHeap<std::uint64_t, Numbers>>(); }

void build_graph(const std::vector<plan_link>& links, std::size_t stations)
{
    std::vector<std::pair<int, int>> pairs;
    for (const plan_link& link : links)
        pairs.emplace_back(link.from, link.to);
    plan->graph.build(static_cast<int>(stations), pairs.begin(), pairs.end());
    plan->costs = std::make_unique<Costs>(plan->graph);
    for (std::size_t k = 0; k < links.size(); k++)
        plan->costs->set(plan->graph.arc(static_cast<int>(k)), links[k].cost);
}

void load(const plan_file* file)
{
    const std::size_t stations = stations_of(file);
    plan = std::make_unique<Plan>();
    build_graph(links_of(*file), stations);
    for (std::size_t source = 0; source < stations; source++) {
        plan->labels.push_back(std::make_unique<Graph::NodeMap<std::uint64_t>>(plan->graph, UINT64_MAX));
        plan->last_links.push_back(std::make_unique<Graph::NodeMap<Graph::Arc>>(plan->graph, lemon::INVALID));
    }
}

const table* tell()
{
    static table told;
    const int stations = plan->graph.nodeNum();
    for (int source = 0; source < stations; source++)
        for (int station = 0; station < stations; station++) {
            const int place = source * stations + station;
            const Graph::Arc last = (*plan->last_links[source])[plan->graph.node(station)];
            const bool none = last == lemon::INVALID;
            told.costs[place] = (*plan->labels[source])[plan->graph.node(station)];
            told.predecessors[place] = none ? UINT16_MAX : static_cast<std::uint16_t>(plan->graph.id(plan->graph.source(last)));
        }
    return &told;
}

const contestant contestants[] = {{"BinHeap", run_bin_heap}, {"QuadHeap", run_quad_heap}};

} // namespace

int main()
{
    const group lemon_graph = {"LEMON " LEMON_VERSION, contestants, std::size(contestants), load, tell};
    return serve(&lemon_graph);
}
