// The distances from the first vertex, by the Boost Graph Library (Debian: libboost-graph-dev): each vertex with the number
// of arcs on a shortest way to it, or - where there is none, as `sgb_levels` writes them.
//
//     c++ -std=c++20 -O2 -Iinclude examples/cpp/distances.cpp libsgb.a -o distances && ./distances "petersen()"
#include <boost/graph/breadth_first_search.hpp>
#include <boost/graph/compressed_sparse_row_graph.hpp>
#include <cstdint>
#include <iostream>
#include <iterator>
#include <string>
#include <utility>
#include <vector>

#include "sgb.hpp"

using csr = boost::compressed_sparse_row_graph<boost::directedS, boost::no_property, boost::no_property, boost::no_property,
                                               std::uint32_t, std::uint64_t>;

// The arcs of a graph, sorted by where they begin.
static csr boost_graph(sgb::graph &graph) {
    const auto lists = graph.tips();
    std::vector<std::pair<std::uint32_t, std::uint32_t>> arcs;
    arcs.reserve(lists.tips().size());
    for (std::uint32_t v = 0; v < graph.n(); v++)
        for (std::uint32_t tip : lists.tips(v)) arcs.emplace_back(v, tip);
    return csr(boost::edges_are_sorted, arcs.begin(), arcs.end(), graph.n());
}

int main(int count, char **words) {
    if (count != 2) {
        std::cerr << "usage: distances EXPR\n";
        return 2;
    }
    try {
        const std::string text = words[1];
        std::string input;
        if (text.find("stdin") != text.npos) input.assign(std::istreambuf_iterator<char>(std::cin), {});
        sgb::graph graph(text, input);
        if (graph.n() == 0) return 0;
        const csr searched = boost_graph(graph);
        const std::uint64_t unreached = graph.n();
        std::vector<std::uint64_t> distances(graph.n(), unreached);
        distances[0] = 0;
        boost::breadth_first_search(
            searched, boost::vertex(0, searched),
            boost::visitor(boost::make_bfs_visitor(boost::record_distances(distances.data(), boost::on_tree_edge()))));
        const auto names = graph.names();
        for (std::uint64_t v = 0; v < graph.n(); v++)
            std::cout << names[v] << " " << (distances[v] == unreached ? "-" : std::to_string(distances[v])) << "\n";
    } catch (const sgb::error &why) {
        std::cerr << why.what() << "\n";
        return 1;
    }
}
