// The listing of a graph, from C++, as `sgb list` writes it.
//
//     c++ -std=c++20 -O2 -Iinclude examples/cpp/first.cpp libsgb.a -o first && ./first "petersen()"
//
// The expression stdin is the graph of the .gb file on standard input.
#include <iostream>
#include <iterator>
#include <string>

#include "sgb.hpp"

int main(int count, char **words) {
    if (count != 2) {
        std::cerr << "usage: first EXPR\n";
        return 2;
    }
    try {
        const std::string text = words[1];
        std::string input;
        if (text.find("stdin") != text.npos) input.assign(std::istreambuf_iterator<char>(std::cin), {});
        sgb::graph graph(text, input);
        const auto names = graph.names();
        std::cout << "  The graph whose official name is\n" << graph.id() << "\n  has " << graph.n() << " vertices and "
                  << graph.m() << " arcs:\n\n";
        const auto rows = graph.rows();
        for (std::uint32_t v = 0; v < graph.n(); v++) {
            std::cout << names[v] << "\n";
            for (const auto &arc : rows.arcs(v)) std::cout << "  -> " << names[arc.tip] << ", length " << arc.length << "\n";
        }
    } catch (const sgb::error &why) {
        std::cerr << why.what() << "\n";
        return 1;
    }
}
