// Distances from the first vertex by the Boost Graph Library, whose own adaptor (boost/graph/stanford_graph.hpp) takes graphs of
// GraphBase as they are: of each vertex its name, the arcs on a shortest way to it, and the least length of a way; - where there
// is none. The graph is that of a `.gb` file, or the union of those of two.
//
//     c++ -O2 -DSGB_GRAPHBASE_STUBS -Iinclude/graphbase examples/graphbase/boost_distances.cpp libgb.a libsgb.a
#include <cstdio>
#include <limits>
#include <string>

// the adaptor comes first, so that the searches find what it says of graphs
#include <boost/graph/stanford_graph.hpp>

#include <boost/graph/breadth_first_search.hpp>
#include <boost/graph/dijkstra_shortest_paths.hpp>

using arcs_property = boost::u_property<long>;
using length_property = boost::v_property<long>;

static const long nowhere = std::numeric_limits<long>::max();

static Graph *graph_of(int count, char **words) {
    Graph *g = restore_graph(words[1]);
    if (count == 2 || !g) return g;
    Graph *gg = restore_graph(words[2]);
    Graph *both = gg ? gunion(g, gg, 0L, 0L) : NULL;
    gb_recycle(g);
    gb_recycle(gg);
    return both;
}

static std::string shown(long distance) { return distance == nowhere ? "-" : std::to_string(distance); }

int main(int count, char **words) {
    if (count != 2 && count != 3) {
        std::fprintf(stderr, "usage: boost_distances FILE [FILE]\n");
        return 2;
    }
    Graph *g = graph_of(count, words);
    if (!g) {
        std::fprintf(stderr, "Something went wrong (panic code %ld)!\n", panic_code);
        return 1;
    }
    if (g->n > 0) {
        Vertex *first = g->vertices;
        auto arcs = get(arcs_property(), g);
        auto lengths = get(length_property(), g);
        for (Vertex *v = first; v < first + g->n; v++) put(arcs, v, nowhere);
        put(arcs, first, 0L);
        boost::breadth_first_search(
            g, first, boost::visitor(boost::make_bfs_visitor(boost::record_distances(arcs, boost::on_tree_edge()))));
        boost::dijkstra_shortest_paths(g, first, boost::distance_map(lengths).weight_map(get(boost::edge_length_t(), g)));
        for (Vertex *v = first; v < first + g->n; v++)
            std::printf("%s %s %s\n", v->name, shown(get(arcs, v)).c_str(), shown(get(lengths, v)).c_str());
    }
    gb_recycle(g);
}
