// The links of a plan file, for peers that are handed a ready graph.
#ifndef BENCH_PLAN_LINKS_HPP
#define BENCH_PLAN_LINKS_HPP

#include "protocol.h"

#include <algorithm>
#include <cstddef>
#include <cstdint>
#include <vector>

struct plan_link {
    std::size_t from, to;
    std::uint64_t cost;
};

inline plan_link link_of(const std::uint8_t* record)
{
    plan_link link = {big_endian_16(record), big_endian_16(record + 2), 0};
    for (std::size_t i = 4; i < RECORD; i++)
        link.cost = link.cost << 8 | record[i];
    return link;
}

// Those that leave one station stand together, so that each peer finds them side by side in memory.
inline std::vector<plan_link> links_of(const plan_file& file)
{
    std::vector<plan_link> links(big_endian_16(file.bytes + 8));
    for (std::size_t k = 0; k < links.size(); k++)
        links[k] = link_of(file.bytes + HEADER + k * RECORD);
    std::stable_sort(links.begin(), links.end(), [](const auto& a, const auto& b) { return a.from < b.from; });
    return links;
}

#endif
