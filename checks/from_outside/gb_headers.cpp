// The headers of GraphBase before those of C++ and sgb.hpp, which use some of the same names. It prints graphs that short
// names make.
#include "gb_basic.h"
#include "gb_flip.h"
#include "gb_graph.h"
#include "gb_save.h"

#include <algorithm>
#include <functional>
#include <iostream>
#include <iterator>
#include <map>
#include <memory>
#include <string>
#include <vector>

#if __cplusplus >= 202002L
#include "sgb.hpp"
#endif
#if __cplusplus >= 201703L
static bool has_none(const std::string &s) { return std::empty(s); }
#else
static bool has_none(const std::string &s) { return s.empty(); }
#endif

// both libraries have a function `empty` then
using namespace std;

int main() {
    cout << empty(3)->id << ' ' << empty(5L)->n << ' ' << empty(4UL)->m << ' ' << complete(3)->id << ' ' << cycle(3)->id << '\n';
    cout << product(empty(2), circuit(3), direct, 0L)->id << ' ' << has_none("") << vector<int>{1}.empty() << '\n';
}
