// Boost Graph: both of its searches from each source, the one that colors stations and the one that does not, each on a graph
// of lists and on one of compressed rows.
#include "plan_links.hpp"

#include <boost/graph/adjacency_list.hpp>
#include <boost/graph/compressed_sparse_row_graph.hpp>
#include <boost/graph/dijkstra_shortest_paths.hpp>
#include <boost/graph/dijkstra_shortest_paths_no_color_map.hpp>
#include <boost/property_map/property_map.hpp>
#include <boost/version.hpp>

#include <iterator>
#include <memory>
#include <string>
#include <utility>

namespace {

struct Cost {
    std::uint64_t cost;
};

using Lists = boost::adjacency_list<boost::vecS, boost::vecS, boost::directedS, boost::no_property, Cost>;
using Rows = boost::compressed_sparse_row_graph<boost::directedS, boost::no_property, Cost>;

std::size_t stations;
std::unique_ptr<Lists> lists;
std::unique_ptr<Rows> rows;
std::vector<std::uint64_t> costs;
std::vector<std::size_t> predecessors; // a station that has none is its own

enum class Colors { kept, none };

template <Colors colors, class Graph> void work_table(const Graph& graph)
{
    const auto numbers = get(boost::vertex_index, graph);
    for (std::size_t source = 0; source < stations; source++) {
        const auto row = static_cast<std::ptrdiff_t>(source * stations);
        const auto maps = boost::weight_map(get(&Cost::cost, graph))
                              .distance_map(boost::make_iterator_property_map(costs.begin() + row, numbers))
                              .predecessor_map(boost::make_iterator_property_map(predecessors.begin() + row, numbers));
        if constexpr (colors == Colors::kept)
            boost::dijkstra_shortest_paths(graph, source, maps);
        else
            boost::dijkstra_shortest_paths_no_color_map(graph, source, maps);
    }
}

void run_lists() { work_table<Colors::kept>(*lists); }
void run_rows() { work_table<Colors::kept>(*rows); }
void run_lists_without_colors() { work_table<Colors::none>(*lists); }
void run_rows_without_colors() { work_table<Colors::none>(*rows); }

void load(const plan_file* file)
{
    std::vector<std::pair<std::size_t, std::size_t>> pairs;
    std::vector<Cost> link_costs;
    for (const plan_link& link : links_of(*file)) {
        pairs.emplace_back(link.from, link.to);
        link_costs.push_back({link.cost});
    }
    stations = stations_of(file);
    lists = std::make_unique<Lists>(pairs.begin(), pairs.end(), link_costs.begin(), stations);
    rows = std::make_unique<Rows>(boost::edges_are_sorted, pairs.begin(), pairs.end(), link_costs.begin(), stations);
    costs.assign(stations * stations, 0);
    predecessors.assign(stations * stations, 0);
}

const table* tell()
{
    static table told;
    for (std::size_t place = 0; place < stations * stations; place++) {
        const bool none = predecessors[place] == place % stations;
        told.costs[place] = costs[place];
        told.predecessors[place] = none ? UINT16_MAX : static_cast<std::uint16_t>(predecessors[place]);
    }
    return &told;
}

const contestant contestants[] = {{"list", run_lists},
                                  {"csr", run_rows},
                                  {"list-no-color", run_lists_without_colors},
                                  {"csr-no-color", run_rows_without_colors}};

} // namespace

int main()
{
    const std::string title =
        "Boost " + std::to_string(BOOST_VERSION / 100000) + "." + std::to_string(BOOST_VERSION / 100 % 1000);
    const group boost_graph = {title.c_str(), contestants, std::size(contestants), load, tell};
    return serve(&boost_graph);
}
