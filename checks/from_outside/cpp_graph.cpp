// Tests of include/sgb.hpp: a graph that is moved, closed and refused; runs, iterators, chunks. It prints what is not
// as it must be, and ends with status 4; else "right". Calls of sgb_close are counted (-Wl,--wrap=sgb_close).
#include <algorithm>
#include <cstdlib>
#include <iostream>
#include <ranges>
#include <type_traits>
#include <utility>

#include "sgb.hpp"

static int closed;
extern "C" void __real_sgb_close(sgb_graph *graph);
extern "C" void __wrap_sgb_close(sgb_graph *graph);
extern "C" void __wrap_sgb_close(sgb_graph *graph) {
    closed += graph->is_open;
    __real_sgb_close(graph);
}

static void check(bool is_right, const char *what) {
    if (is_right) return;
    std::cerr << "cpp_graph: " << what << "\n";
    std::exit(4);
}

template <class F> static std::uint64_t code_of(F call) {
    try {
        call();
    } catch (const sgb::error &why) {
        return why.code;
    }
    return 0;
}

template <class F> static bool is_no_vertex(F call) {
    try {
        call();
    } catch (const std::out_of_range &) {
        return true;
    }
    return false;
}

template <class F> static bool is_refused(F call) {
    try {
        call();
    } catch (const std::invalid_argument &) {
        return true;
    }
    return false;
}

static void runs() {
    const sgb::graph graph("board(3,4,0,0,1,0,0)");
    check(graph.m() == 34 && graph.kinds() == "ZZZIIIZZZZZZZZ" && graph.ints(3).size() == 12, "what a const graph has");
    const auto whole = graph.rows();
    const auto names = graph.names();
    for (std::uint32_t first = 0; first <= 12; first++)
        for (std::uint32_t count = 0; first + count <= 12; count++) {
            const auto part = graph.rows(first, count);
            const auto plain = graph.tips(first, count);
            const auto called = graph.names(first, count);
            check(part.first() == first && part.count() == count && plain.count() == count, "the vertices of a run");
            check(part.starts().size() == count + 1 && called.size() == count, "the sizes of a run");
            check(part.tips().size() == whole.starts()[first + count] - whole.starts()[first], "the arcs of a run");
            check(std::ranges::equal(part.tips(), plain.tips()) && std::ranges::equal(part.starts(), plain.starts()), "lists alone");
            for (std::uint32_t v = first; v < first + count; v++) {
                check(std::ranges::equal(part.tips(v), whole.tips(v)), "the tips of a run");
                check(std::ranges::equal(plain.tips(v), whole.tips(v)), "the tips of lists alone");
                check(std::ranges::equal(part.lengths(v), whole.lengths(v)), "the lengths of a run");
                check(std::ranges::equal(part.arcs(v), whole.arcs(v)), "the arcs of a vertex in a run");
                check(called[v] == names[v], "the names of a run");
            }
            check(is_no_vertex([&] { part.tips(first + count); }) && is_no_vertex([&] { called[first + count]; }), "past a run");
            check(first == 0 || is_no_vertex([&] { part.lengths(first - 1); }), "before a run");
            check(graph.ints(3, first, count).size() == count, "the integers of a run");
        }
    check(code_of([&] { graph.rows(12, 1); }) == SGB_NO_VERTEX, "a run past the end");
    check(code_of([&] { graph.tips(13, 0); }) == SGB_NO_VERTEX, "lists past the end");
    check(code_of([&] { graph.names(0, 13); }) == SGB_NO_VERTEX, "names past the end");
    check(code_of([&] { graph.ints(3, 1, 4294967295); }) == SGB_NO_VERTEX, "integers past the end");
}

static void iterators() {
    sgb::graph graph("board(3,4,0,0,1,0,0)");
    const auto whole = graph.rows();
    std::vector<sgb::arc> arcs;
    for (std::uint32_t v = 0; v < 12; v++)
        for (std::size_t k = 0; k < whole.tips(v).size(); k++) arcs.push_back({v, whole.tips(v)[k], whole.lengths(v)[k]});
    check(std::ranges::equal(whole.arcs(), arcs) && arcs.size() == 34, "all arcs");
    std::size_t at = 0;
    for (auto [from, tip, length] : whole.arcs()) {
        check(sgb::arc{from, tip, length} == arcs[at], "the arcs that a loop goes through");
        at++;
    }
    // a vertex without arcs, which is passed
    sgb::graph few("board(5,0,0,0,9,0,0)");
    const auto lists = few.rows();
    check(std::ranges::equal(lists.arcs(), std::vector<sgb::arc>{{0, 3, 1}, {1, 4, 1}, {3, 0, 1}, {4, 1, 1}}), "moves by three");
    const auto late = few.rows(2, 2);
    check(std::ranges::equal(late.arcs(), std::vector<sgb::arc>{{3, 0, 1}}), "the arcs of a run that begins with none");
    check(std::ranges::distance(late.arcs(2)) == 0 && std::ranges::distance(late.arcs(3)) == 1, "the arcs of its vertices");
    const auto none = sgb::graph("empty(4)").rows();
    check(none.count() == 4 && none.arcs().begin() == none.arcs().end() && none.arcs(2).begin() == none.arcs(2).end(), "no arcs");
    const auto names = graph.names();
    std::vector<std::string_view> called(names.begin(), names.end());
    check(called.size() == 12 && called[5] == "1.1" && names.begin()[5] == "1.1" && names.end() - names.begin() == 12, "names");
    check(std::ranges::find(names, "2.3") == names.begin() + 11 && *--names.end() == "2.3", "a name that is looked for");
    const auto some = graph.names(4, 3);
    check(std::ranges::equal(some, std::vector<std::string_view>{"1.0", "1.1", "1.2"}), "the names that a run goes through");
}

// that these chunks of a board of 3 by 4 are its lists, so many vertices at a time
template <class Chunks> static void all_of(const Chunks &chunks, const sgb::arc_lists &whole, std::uint32_t size) {
    std::uint32_t next = 0;
    for (const auto &part : chunks) {
        check(part.first() == next && part.count() == std::min(size, 12 - next), "the vertices of a chunk");
        for (std::uint32_t v = next; v < next + part.count(); v++) {
            check(std::ranges::equal(part.tips(v), whole.tips(v)), "the lists of a chunk");
            if constexpr (std::is_same_v<Chunks, sgb::chunk_list>)
                check(std::ranges::equal(part.lengths(v), whole.lengths(v)), "the lengths of a chunk");
        }
        next += part.count();
    }
    check(next == 12, "all chunks");
}

static void chunks() {
    const sgb::graph graph("board(3,4,0,0,-1,0,0)");
    const auto whole = graph.rows();
    for (std::uint32_t size : {1u, 5u, 12u, 13u, 4294967295u}) {
        all_of(graph.chunks(size), whole, size);
        all_of(graph.tip_chunks(size), whole, size);
    }
    check(is_refused([&] { graph.chunks(0); }) && is_refused([&] { graph.tip_chunks(0); }), "chunks of no vertices");
    sgb::graph none("simplex(3,1,1,0,0,0,0)");
    for (const auto &part : none.chunks(10)) check(part.count() == 99, "a graph of no vertices has a chunk");
    check(none.n() == 0 && none.rows().starts().size() == 1 && none.names().size() == 0, "a graph of no vertices");
}

static void great() {
    sgb::graph graph("board(1000000000,0,0,0,1,0,0)");
    check(graph.n() == 1000000000 && graph.m() == 1999999998, "the sizes of a great board");
    auto last = graph.rows(999999998, 2);
    const auto moved = std::move(last);
    check(moved.tips(999999999).size() == 1 && moved.tips(999999999)[0] == 999999998, "its last arc");
    check(moved.lengths(999999999)[0] == 1, "the length of its last arc");
    check(is_no_vertex([&] { moved.tips(1000000000); }), "the list of a vertex that is not there");
    check(is_no_vertex([&] { last.tips(999999999); }) && last.count() == 0, "the lists of a run that was moved away");
    check(std::ranges::equal(graph.names(999999998, 2), std::vector<std::string_view>{"999999998", "999999999"}), "its last names");
    const auto chunks = graph.chunks(4);
    auto first = chunks.begin();
    ++first;
    check(first->first() == 4 && first->count() == 4 && first != chunks.end(), "its second chunk");
}

template <class F> static std::string words_of(F call) {
    try {
        call();
    } catch (const std::exception &why) {
        return why.what();
    }
    return "";
}

static_assert(std::forward_iterator<sgb::arc_lists::iterator> && std::ranges::forward_range<sgb::arc_lists::range>);
static_assert(std::random_access_iterator<sgb::name_list::iterator> && std::ranges::random_access_range<const sgb::name_list>);
static_assert(std::input_iterator<sgb::chunk_list::iterator> && std::ranges::input_range<const sgb::chunk_list>);
static_assert(std::input_iterator<sgb::tip_chunk_list::iterator> && std::ranges::input_range<const sgb::tip_chunk_list>);
static_assert(!std::is_copy_constructible_v<sgb::arc_lists> && std::is_nothrow_move_constructible_v<sgb::arc_lists>);
static_assert(!std::is_copy_constructible_v<sgb::name_list> && std::is_nothrow_move_assignable_v<sgb::name_list>);
static_assert(!std::is_copy_constructible_v<sgb::graph> && !std::is_copy_assignable_v<sgb::graph>);
static_assert(std::is_nothrow_move_constructible_v<sgb::graph> && std::is_nothrow_move_assignable_v<sgb::graph>);

// a graph of one's own: lists in the order of its edges, a loop, a length below 0
static void own() {
    const std::vector<sgb::edge> edges = {{1, 0, 5}, {1, 2}, {2, 0, -3}, {1, 1}};
    sgb::graph graph = sgb::from_edges(4, edges);
    const auto rows = graph.rows();
    const std::vector<std::vector<std::uint32_t>> tips = {{1, 2}, {0, 2, 1, 1}, {1, 0}, {}};
    const std::vector<std::vector<std::int64_t>> lengths = {{5, -3}, {5, 1, 1, 1}, {1, -3}, {}};
    check(graph.n() == 4 && graph.m() == 8 && graph.id() == "edges" && graph.names()[3] == "3", "a graph of edges");
    for (std::uint32_t v = 0; v < 4; v++)
        check(std::ranges::equal(rows.tips(v), tips[v]) && std::ranges::equal(rows.lengths(v), lengths[v]), "the lists of edges");
    sgb::graph lines("lines(stdin,0)", sgb::file_of_edges(4, edges));
    check(lines.n() == 4, "the lines of a graph of edges");
    const std::vector<std::string> names = {"a", "b c", "", "#"};
    sgb::graph arcs = sgb::from_edges(4, edges, true, names, "own");
    const auto out = arcs.rows();
    check(arcs.m() == 4 && arcs.id() == "own" && std::ranges::equal(arcs.names(), names), "a graph of arcs");
    check(std::ranges::equal(out.tips(1), std::vector<std::uint32_t>{0, 2, 1}) && out.tips(0).empty(), "the lists of arcs");
    check(sgb::from_edges(0, {}).n() == 0, "a graph of nothing");
    check(is_refused([&] { sgb::from_edges(2, edges); }), "an end that is no vertex");
    check(is_refused([&] { sgb::from_edges(3, edges, false, names); }), "names for other vertices");
    const std::vector<std::string> quotes = {"a", "b", "c", "\""}, longer = {"a", "b", "c", std::string(4096, 'x')};
    check(is_refused([&] { sgb::from_edges(4, edges, false, quotes); }), "a name that no file can have");
    check(is_refused([&] { sgb::from_edges(4, edges, false, longer); }), "a name that is too long");
    check(is_refused([&] { sgb::from_edges(4, edges, false, {}, std::string(161, 'x')); }), "an id that is too long");
    sgb::graph most = sgb::from_edges(4, edges, false, {}, std::string(160, 'x'));
    check(most.id().size() == 160, "the longest id");
}

// A file of edges is the one that the library writes, but for the checksum, and so its lines have at most 79 bytes.
static void written() {
    for (std::size_t size : {0, 1, 70, 75, 76, 77, 78, 79, 80, 154, 155, 156, 157, 158, 160, 300, 4095}) {
        const std::vector<std::string> names = {"a", std::string(size, ' '), std::string(size, 'x'), std::string(size, '&')};
        const std::vector<sgb::edge> edges = {{1, 0, INT64_MIN}, {1, 2, INT64_MAX}, {2, 0, -3}, {1, 1}};
        for (const bool directed : {false, true}) {
            const auto id = std::string(std::min<std::size_t>(size, 160), '-');
            const auto file = sgb::file_of_edges(4, edges, directed, names, id);
            const sgb::graph read("stdin", file);
            check(read.id() == id && std::ranges::equal(read.names(), names), "the texts of a file of edges");
            const auto saved = read.file();
            check(file == saved.substr(0, saved.find("* Checksum ")) + "* Checksum -1\n", "a file of edges");
            for (std::size_t at = 0, end; at < file.size(); at = end + 1)
                check((end = file.find('\n', at)) - at <= 79, "a line of more than 79 bytes");
        }
    }
}

// the arrays, names and id of a graph, as one text
static std::string told(const sgb::graph &graph) { return graph.id() + "\n" + graph.file(); }

// that an operation makes the graph of the expression
static void same(sgb::graph made, const char *text, const char *what) {
    sgb::graph wanted(text);
    check(told(made) == told(wanted) && made.n() == wanted.n() && made.m() == wanted.m(), what);
}

static void operations() {
    sgb::graph board("board(3,3,0,0,1,0,0)"), ring("circuit(4)"), arcs("transitive(3)");
    const auto before = told(board) + told(ring);
    same(board.complement(), "complement(board(3,3,0,0,1,0,0),0,0,0)", "a complement");
    same(board.complement(true), "complement(board(3,3,0,0,1,0,0),1,0,0)", "a copy");
    same(board.complement(false, true), "complement(board(3,3,0,0,1,0,0),0,1,0)", "a complement with loops");
    same(board.complement(false, false, true), "complement(board(3,3,0,0,1,0,0),0,0,1)", "a complement of arcs");
    same(board.lines(), "lines(board(3,3,0,0,1,0,0),0)", "lines");
    same(arcs.lines(true), "lines(transitive(3),1)", "lines of arcs");
    same(sgb::gunion(board, ring), "gunion(board(3,3,0,0,1,0,0),circuit(4),0,0)", "a union");
    same(sgb::gunion(ring, board, true), "gunion(circuit(4),board(3,3,0,0,1,0,0),1,0)", "the union of the other order");
    same(sgb::gunion(ring, arcs, false, true), "gunion(circuit(4),transitive(3),0,1)", "a union of arcs");
    same(sgb::gunion(ring, ring, true), "gunion(circuit(4),circuit(4),1,0)", "a union with itself");
    same(sgb::intersection(ring, board), "intersection(circuit(4),board(3,3,0,0,1,0,0),0,0)", "an intersection");
    same(sgb::intersection(ring, board, true), "intersection(circuit(4),board(3,3,0,0,1,0,0),1,0)", "one with parallel arcs");
    same(sgb::intersection(ring, ring, true, true), "intersection(circuit(4),circuit(4),1,1)", "an intersection with itself");
    same(sgb::product(ring, arcs), "product(circuit(4),transitive(3),0,0)", "a cartesian product");
    same(sgb::product(ring, arcs, sgb::product_kind::direct), "product(circuit(4),transitive(3),1,0)", "a direct product");
    same(sgb::product(arcs, ring, "strong", true), "product(transitive(3),circuit(4),2,1)", "a strong product");
    same(sgb::product(ring, ring, "direct"), "product(circuit(4),circuit(4),1,0)", "a product with itself");
    same(sgb::induced(arcs, {1, 2, ring}), "induced(transitive(3),[1,2,circuit(4)],0,0,0)", "an induced graph");
    same(sgb::induced(arcs, {-1, arcs, -1}, true, false, true), "induced(transitive(3),[-1,transitive(3),-1],1,0,1)", "with itself");
    same(sgb::induced(arcs, {-1, 1, -1}, false, true, true), "induced(transitive(3),[-1,1,-1],0,1,1)", "with parallel arcs");
    same(sgb::bi_complete(2, 3), "bi_complete(2,3,0)", "a complete bipartite graph");
    same(sgb::bi_complete(2, 3, true), "bi_complete(2,3,1)", "one of arcs");
    same(sgb::wheel(5), "wheel(5,1,0)", "a wheel");
    same(sgb::wheel(5, 2, true), "wheel(5,2,1)", "a wheel of arcs");
    same(sgb::wheel_around(ring, 5), "induced(board(2,0,0,0,1,0,0),[circuit(4),board(5,0,0,0,1,1,0)],0,0,0)", "a wheel around a graph");
    same(sgb::wheel_around(ring, INT64_MIN), "induced(board(2,0,0,0,1,0,0),[circuit(4),board(0,0,0,0,1,1,0)],0,0,0)", "a wheel of a board");
    check(told(board) + told(ring) == before, "operands stay as they are");
    check(code_of([&] { arcs.lines(); }) == SGB_INVALID_OPERAND, "lines of arcs that are no edges");
    check(code_of([&] { sgb::induced(arcs, {1}); }) == SGB_BAD_SPECS, "too few entries");
    check(code_of([&] { sgb::bi_complete(-1, 1); }) == SGB_BAD_SPECS, "a number below 0");
    check(is_refused([&] { sgb::product(ring, ring, "tensor"); }), "a product that is none");
    const int then = closed;
    ring.close();
    check(code_of([&] { sgb::gunion(board, ring); }) == SGB_NOT_OPEN && code_of([&] { sgb::gunion(ring, ring); }) == SGB_NOT_OPEN, "closed");
    check(code_of([&] { ring.lines(); }) == SGB_NOT_OPEN && code_of([&] { sgb::induced(arcs, {ring}); }) == SGB_NOT_OPEN, "closed entries");
    check(closed == then + 1, "what is refused is not closed");
}

// a graph of events: each leads the lists of its ends
static void making() {
    const std::vector<std::string> names = {"a", "", "c"};
    const std::vector<std::uint32_t> from = {0, 0, 2}, to = {1, 2, 2};
    const std::vector<std::int64_t> lengths = {1, INT64_MIN, INT64_MAX};
    sgb::graph made = sgb::graph::make(names, from, to, lengths, true, "made");
    const auto rows = made.rows();
    check(made.id() == "made" && std::ranges::equal(made.names(), names) && made.m() == 3, "a graph that is made");
    check(std::ranges::equal(rows.tips(0), std::vector<std::uint32_t>{2, 1}), "later arcs come first");
    check(std::ranges::equal(rows.lengths(0), std::vector<std::int64_t>{INT64_MIN, 1}), "their lengths");
    check(sgb::graph::make(names, from, to, lengths, false, "").m() == 6, "a graph of edges");
    check(sgb::graph::make({}, {}, {}, {}, false, "none").n() == 0, "a graph of nothing that is made");
    check(code_of([&] { sgb::graph::make(names, from, from, {}, true, ""); }) == SGB_WRONG_LENGTH, "lengths that are not there");
    check(code_of([&] { sgb::graph::make(std::span(names).first(2), from, to, lengths, true, ""); }) == SGB_NO_VERTEX, "no vertex");
    check(code_of([&] { sgb::graph::make(names, from, to, lengths, true, "\n"); }) == SGB_NO_TEXT, "an id that is no text");
    const std::vector<sgb::edge> edges = {{1, 0, 5}, {1, 2}, {1, 1}};
    sgb::graph own = sgb::from_edges(3, edges), read("stdin", sgb::file_of_edges(3, edges));
    check(std::ranges::equal(own.rows().arcs(), read.rows().arcs()) && own.id() == read.id(), "a file and a graph of the same edges");
}

int main() {
    own();
    written();
    operations();
    making();
    closed = 0;
    {
        sgb::graph first("board(3,4,0,0,1,0,0)");
        const auto names = first.names();
        const auto rows = first.rows();
        check(first.n() == 12 && first.m() == 34 && names.size() == 12 && names[5] == "1.1", "a board of 3 by 4");
        check(first.id() == "board(3,4,0,0,1,0,0)", "its id");
        check(first.ints(3)[11] == 2 && first.ints(4)[11] == 3, "coordinates");
        check(code_of([&] { first.ints(0); }) == SGB_NO_INTEGERS, "a field that holds no integers");
        check(first.kinds() == "ZZZIIIZZZZZZZZ", "kinds");
        const auto file = first.file();
        check(file.starts_with("* GraphBase graph (util_types ZZZIIIZZZZZZZZ,12V,34A)\n"), "a file");
        sgb::graph read("stdin", file);
        check(std::ranges::equal(read.names(), names) && read.file() == file, "the graph of a file");
        read.close();
        closed = 0;
        check(rows.tips(11).size() == 2 && rows.tips(0).size() == 2 && rows.tips(0)[0] == 4, "the list of a vertex");
        check(is_no_vertex([&] { rows.tips(12); }), "the list of a vertex that is not there");
        sgb::graph second(std::move(first));
        check(closed == 0 && std::ranges::equal(second.names(), names) && second.tips().tips().size() == 34, "a graph that was moved");
        check(code_of([&] { first.names(); }) == SGB_NOT_OPEN, "a graph that was moved away");
        sgb::graph third("petersen()");
        third = std::move(second);
        check(closed == 1, "a graph in whose place another comes is closed");
        check(third.n() == 12 && std::ranges::equal(third.names(), names), "a graph that was moved over another");
        third.close();
        check(closed == 2 && rows.tips().size() == 34 && third.n() == 12, "the arrays of a graph that was closed");
        check(code_of([&] { third.rows(); }) == SGB_NOT_OPEN, "lists of a graph that was closed");
        check(code_of([&] { third.tips(); }) == SGB_NOT_OPEN, "tips of a graph that was closed");
        check(code_of([&] { third.m(); }) == SGB_NOT_OPEN, "the arcs of a graph that was closed");
        check(code_of([&] { for (const auto &part : third.chunks(3)) check(part.count() == 99, ""); }) == SGB_NOT_OPEN, "chunks");
        check(code_of([&] { third.names(); }) == SGB_NOT_OPEN, "names of a graph that was closed");
        check(code_of([&] { third.ints(3); }) == SGB_NOT_OPEN, "integers of a graph that was closed");
        check(code_of([&] { third.kinds(); }) == SGB_NOT_OPEN, "kinds of a graph that was closed");
        check(code_of([&] { third.file(); }) == SGB_NOT_OPEN, "the file of a graph that was closed");
        third.close();
    }
    check(closed == 2, "a graph is closed once");
    {
        sgb::graph graph("petersen()");
    }
    check(closed == 3, "a graph is closed at its end");
    check(code_of([] { sgb::graph graph("board(3,"); }) == SGB_BAD_EXPRESSION + 8, "a bad text");
    check(code_of([] { sgb::graph graph(""); }) == SGB_BAD_EXPRESSION, "a text of no bytes");
    check(code_of([] { sgb::graph graph(std::string_view{}); }) == SGB_BAD_EXPRESSION, "a text without an address");
    check(code_of([] { sgb::graph graph("stdin"); }) == SGB_EARLY_DATA_FAULT, "no input");
    check(closed == 3, "a graph that was refused is not closed");
    check(sgb::draws(-314159, 0, 1).at(0) == 119318998 && sgb::draws(0, 0, 0).empty(), "draws");
    check(sgb::uniform_draws(5, 5, 1, 3) == std::vector<std::uint32_t>(3), "uniform draws");
    check(code_of([] { sgb::uniform_draws(5, 5, 0, 3); }) == SGB_BAD_BOUND, "a bad bound");
    check(words_of([] { sgb::graph graph("board(3,"); }) == "bad expression at byte 8", "the words of a bad expression");
    check(words_of([] { sgb::graph graph("board(2,-251,0,0,1,0,0)"); }) == "parameters that make no sense (code 30)", "words");
    runs();
    iterators();
    chunks();
    great();
    std::cout << "right\n";
}
