// The library of sgb.h for C++: a graph by its official name, and its arrays, of all vertices or in runs. It needs
// C++20.
//
//     sgb::graph g("petersen()");
//     for (auto [from, tip, length] : g.rows().arcs()) ...
//     sgb::graph lines = g.lines(), both = sgb::gunion(g, lines);
#ifndef SGB_HPP
#define SGB_HPP

#if __cplusplus < 202002L && (!defined(_MSVC_LANG) || _MSVC_LANG < 202002L)
#error "sgb.hpp needs C++20"
#endif

#include <algorithm>
#include <compare>
#include <cstddef>
#include <cstdint>
#include <initializer_list>
#include <iterator>
#include <memory>
#include <new>
#include <span>
#include <stdexcept>
#include <string>
#include <string_view>
#include <type_traits>
#include <utility>
#include <vector>

#include "sgb.h"

namespace sgb {

// why there is no graph: an answer of sgb.h, in its words
class error : public std::runtime_error {
public:
    explicit error(std::uint64_t answer)
        : std::runtime_error(std::string(sgb_words(answer))
                             + (answer >= SGB_BAD_EXPRESSION ? " at byte " + std::to_string(answer - SGB_BAD_EXPRESSION)
                                                             : " (code " + std::to_string(answer) + ")")),
          code(answer) {}
    const std::uint64_t code;
};

inline void must(std::uint64_t answer) {
    if (answer == SGB_NO_ROOM) throw std::bad_alloc();
    if (answer != SGB_OK) throw error(answer);
}

// an arc of a graph: the vertex whose list it is on, where it leads, and its length
struct arc {
    std::uint32_t from, tip;
    std::int64_t length;
    friend bool operator==(const arc &, const arc &) = default;
};

namespace detail {

// a view of nothing may have no address
inline const char *address(std::string_view bytes) { return bytes.empty() ? "" : bytes.data(); }

// so many values, which are not written before the library does so
template <class T> class array {
public:
    array() = default;
    explicit array(std::uint64_t size) : at_(new T[size]), size_(size) {}
    array(array &&other) noexcept : at_(std::move(other.at_)), size_(std::exchange(other.size_, 0)) {}
    array &operator=(array &&other) noexcept {
        at_ = std::move(other.at_);
        size_ = std::exchange(other.size_, 0);
        return *this;
    }
    T *data() { return at_.get(); }
    std::size_t size() const { return size_; }
    std::span<const T> all() const { return {at_.get(), size_}; }

private:
    std::unique_ptr<T[]> at_;
    std::size_t size_ = 0;
};

// the vertices of a run, and where the part of each begins and ends
class run {
public:
    run() = default;
    run(std::uint32_t first, std::uint32_t count) : first_(first), starts_(std::uint64_t{count} + 1) {}

    std::uint32_t first() const { return first_; }
    std::uint32_t count() const { return starts_.size() == 0 ? 0 : static_cast<std::uint32_t>(starts_.size() - 1); }
    std::span<const std::uint64_t> starts() const { return starts_.all(); }

    // where the part of vertex v of the graph begins and ends; std::out_of_range where v is not in the run
    std::pair<std::uint64_t, std::uint64_t> part(std::uint64_t v) const {
        if (v < first_ || v - first_ >= count()) throw std::out_of_range("sgb: no such vertex");
        return {starts()[v - first_], starts()[v - first_ + 1]};
    }

protected:
    std::uint32_t first_ = 0;
    array<std::uint64_t> starts_;
};

template <class T> std::span<const T> between(std::span<const T> all, std::pair<std::uint64_t, std::uint64_t> part) {
    return all.subspan(part.first, part.second - part.first);
}

} // namespace detail

class graph;

// The lists of a run of vertices: where their arcs lead, without lengths. It may be moved, and is not copied.
class tip_lists : public detail::run {
public:
    tip_lists() = default;

    // all lists one after another; that of vertex first() + k is from starts()[k] up to starts()[k + 1]
    std::span<const std::uint32_t> tips() const { return tips_.all(); }
    // the list of vertex v of the graph; std::out_of_range where v is not in the run. So are `lengths` and `arcs` below
    std::span<const std::uint32_t> tips(std::uint64_t v) const { return detail::between(tips(), part(v)); }

protected:
    friend class graph;
    tip_lists(std::uint32_t first, std::uint32_t count, std::uint64_t arcs) : run(first, count), tips_(arcs) {}
    detail::array<std::uint32_t> tips_;
};

// The lists of a run of vertices with the lengths of their arcs. It may be moved, and is not copied.
class arc_lists : public tip_lists {
public:
    arc_lists() = default;

    std::span<const std::int64_t> lengths() const { return lengths_.all(); }
    std::span<const std::int64_t> lengths(std::uint64_t v) const { return detail::between(lengths(), part(v)); }

    // goes through arcs of the run
    class iterator {
    public:
        using value_type = arc;
        using reference = arc;
        using pointer = void;
        using difference_type = std::ptrdiff_t;
        using iterator_category = std::input_iterator_tag;
        using iterator_concept = std::forward_iterator_tag;

        iterator() = default;
        arc operator*() const { return {of_->first() + row_, of_->tips()[at_], of_->lengths()[at_]}; }
        iterator &operator++() {
            at_++;
            pass();
            return *this;
        }
        iterator operator++(int) {
            iterator before = *this;
            ++*this;
            return before;
        }
        friend bool operator==(const iterator &one, const iterator &other) { return one.at_ == other.at_; }

    private:
        friend class arc_lists;
        iterator(const arc_lists *of, std::uint32_t row, std::uint64_t at) : of_(of), row_(row), at_(at) { pass(); }
        // passes the rows that end here
        void pass() {
            while (row_ < of_->count() && of_->starts()[row_ + 1] == at_) row_++;
        }
        const arc_lists *of_ = nullptr;
        std::uint32_t row_ = 0;
        std::uint64_t at_ = 0;
    };

    // what has a beginning and an end
    struct range {
        iterator first, last;
        iterator begin() const { return first; }
        iterator end() const { return last; }
    };

    // the arcs of all lists, and those of one
    range arcs() const { return {iterator(this, 0, 0), iterator(this, count(), tips().size())}; }
    range arcs(std::uint64_t v) const {
        const auto [begin, end] = part(v);
        const auto row = static_cast<std::uint32_t>(v - first());
        return {iterator(this, row, begin), iterator(this, row, end)};
    }

private:
    friend class graph;
    arc_lists(std::uint32_t first, std::uint32_t count, std::uint64_t arcs) : tip_lists(first, count, arcs), lengths_(arcs) {}
    detail::array<std::int64_t> lengths_;
};

// The names of a run of vertices. It may be moved, and is not copied; the names that it shows stand in it.
class name_list : public detail::run {
public:
    name_list() = default;

    std::size_t size() const { return count(); }
    // the name of vertex v of the graph; std::out_of_range where v is not in the run
    std::string_view operator[](std::uint64_t v) const {
        const auto [begin, end] = part(v);
        return {bytes_.all().data() + begin, end - begin};
    }

    // goes through names of the run
    class iterator {
    public:
        using value_type = std::string_view;
        using reference = std::string_view;
        using pointer = void;
        using difference_type = std::ptrdiff_t;
        using iterator_category = std::input_iterator_tag;
        using iterator_concept = std::random_access_iterator_tag;

        iterator() = default;
        std::string_view operator*() const { return (*of_)[at_]; }
        std::string_view operator[](difference_type by) const { return *(*this + by); }
        iterator &operator+=(difference_type by) {
            at_ += static_cast<std::uint64_t>(by);
            return *this;
        }
        iterator &operator-=(difference_type by) { return *this += -by; }
        iterator &operator++() { return *this += 1; }
        iterator &operator--() { return *this -= 1; }
        iterator operator++(int) { return std::exchange(*this, *this + 1); }
        iterator operator--(int) { return std::exchange(*this, *this - 1); }
        friend iterator operator+(iterator at, difference_type by) { return at += by; }
        friend iterator operator+(difference_type by, iterator at) { return at += by; }
        friend iterator operator-(iterator at, difference_type by) { return at -= by; }
        friend difference_type operator-(const iterator &one, const iterator &other) {
            return static_cast<difference_type>(one.at_ - other.at_);
        }
        friend bool operator==(const iterator &one, const iterator &other) { return one.at_ == other.at_; }
        friend auto operator<=>(const iterator &one, const iterator &other) { return one.at_ <=> other.at_; }

    private:
        friend class name_list;
        iterator(const name_list *of, std::uint64_t at) : of_(of), at_(at) {}
        const name_list *of_ = nullptr;
        std::uint64_t at_ = 0;
    };
    iterator begin() const { return {this, first()}; }
    iterator end() const { return {this, std::uint64_t{first()} + count()}; }

private:
    friend class graph;
    name_list(std::uint32_t first, std::uint32_t count, std::uint64_t bytes) : run(first, count), bytes_(bytes) {}
    detail::array<char> bytes_;
};

template <class Lists> class chunks_of;
using chunk_list = chunks_of<arc_lists>;
using tip_chunk_list = chunks_of<tip_lists>;
class entry;

// the products of GB_BASIC: a step in one of two graphs, in both, in one or both
enum class product_kind : std::int64_t { cartesian = 0, direct = 1, strong = 2 };

// A graph that is open. It may be moved, and is not copied. It is used by one call at a time, also where it is const, which
// says that it is neither closed nor moved; what its calls return is the caller's, stays when it is closed, and may be read
// by many.
//
// A generator's graph is not built, so that one of 10^9 vertices is open at once, and is had in runs: `first` and
// `count` are those of sgb.h. Without them a call is of all vertices.
class graph {
public:
    explicit graph(std::string_view text, std::string_view input = "")
        : graph([&](sgb_graph *made) {
              return sgb_open(detail::address(text), text.size(), detail::address(input), input.size(), made);
          }) {}

    // The graph that GraphBase makes of these arcs, or edges, one after another: each leads the lists of its ends, so that the
    // list of a vertex has its arcs in the other order. Vertices have these names. The answers of sgb_make are thrown.
    static graph make(std::span<const std::string> names, std::span<const std::uint32_t> from, std::span<const std::uint32_t> to,
                      std::span<const std::int64_t> lengths, bool directed, std::string_view id);

    // gives back what the library holds: n() and id() stay, and all other calls throw SGB_NOT_OPEN
    void close() { handle_.reset(); }

    // the number of vertices, and the official name
    std::uint32_t n() const { return n_; }
    const std::string &id() const { return id_; }

    // the number of arcs that the graph counts; 2^64 - 1 also where there are more
    std::uint64_t m() const {
        std::uint64_t arcs = 0;
        must(sgb_arcs(held(), &arcs));
        return arcs;
    }

    // the lists of a run
    arc_lists rows(std::uint32_t first, std::uint32_t count) const {
        arc_lists made(first, count, arcs_in(first, count));
        must(sgb_rows(held(), first, count, made.starts_.data(), made.starts_.size(), made.tips_.data(), made.tips_.size(),
                      made.lengths_.data(), made.lengths_.size()));
        return made;
    }
    arc_lists rows() const { return rows(0, n()); }

    // the same without lengths
    tip_lists tips(std::uint32_t first, std::uint32_t count) const {
        tip_lists made(first, count, arcs_in(first, count));
        must(sgb_tips(held(), first, count, made.starts_.data(), made.starts_.size(), made.tips_.data(), made.tips_.size()));
        return made;
    }
    tip_lists tips() const { return tips(0, n()); }

    // the names of a run
    name_list names(std::uint32_t first, std::uint32_t count) const {
        std::uint64_t size = 0;
        must(sgb_names_size(held(), first, count, &size));
        name_list made(first, count, size);
        must(sgb_names(held(), first, count, made.starts_.data(), made.starts_.size(), made.bytes_.data(), made.bytes_.size()));
        return made;
    }
    name_list names() const { return names(0, n()); }

    // the lists of all vertices, `size` vertices at a time: for (const auto &part : g.chunks(10000)) ...
    chunk_list chunks(std::uint32_t size) const;
    // the same without lengths
    tip_chunk_list tip_chunks(std::uint32_t size) const;

    // the integers of a run in a utility field of the vertices: u v w x y z are 0 to 5
    std::vector<std::int64_t> ints(std::uint32_t field, std::uint32_t first, std::uint32_t count) const {
        if (first > n() || count > n() - first) throw error(handle_ ? SGB_NO_VERTEX : SGB_NOT_OPEN);
        // one place more than is handed over, so that there is always an address
        std::vector<std::int64_t> values(std::size_t{count} + 1);
        must(sgb_ints(held(), field, first, count, values.data(), count));
        values.pop_back();
        return values;
    }
    std::vector<std::int64_t> ints(std::uint32_t field) const { return ints(field, 0, n()); }

    // what the utility fields hold, a letter each: of vertices u v w x y z, of arcs a b, of the graph uu vv ww xx yy zz
    std::string kinds() const {
        std::string letters(14, ' ');
        must(sgb_kinds(held(), letters.data(), letters.size()));
        return letters;
    }

    // Operations of GB_BASIC: a graph of its own, made of this one, which stays open and as it is. Those on two graphs stand
    // below. error 60 where `lines` of edges is wanted and arcs are none; 40 where the result has too many vertices.
    graph complement(bool copy = false, bool self_loops = false, bool directed = false) const {
        return graph([&](sgb_graph *made) { return sgb_complement(held(), copy, self_loops, directed, made); });
    }
    graph lines(bool directed = false) const {
        return graph([&](sgb_graph *made) { return sgb_lines(held(), directed, made); });
    }

    // the `.gb` file of the graph
    std::string file() const {
        std::uint64_t size = 0;
        must(sgb_file_size(held(), &size));
        std::string bytes(size, ' ');
        must(sgb_file(held(), bytes.data(), bytes.size()));
        return bytes;
    }

private:
    friend class entry;
    friend graph gunion(const graph &first, const graph &second, bool multi, bool directed);
    friend graph intersection(const graph &first, const graph &second, bool multi, bool directed);
    friend graph product(const graph &first, const graph &second, product_kind kind, bool directed);
    friend graph induced(const graph &of, std::span<const entry> entries, bool self_loops, bool multi, bool directed);
    friend graph bi_complete(std::int64_t n1, std::int64_t n2, bool directed);
    friend graph wheel(std::int64_t n, std::int64_t n1, bool directed);
    friend graph wheel_around(const graph &middle, std::int64_t n, bool directed);

    // the graph that a call makes in the handle
    template <class F>
        requires std::is_invocable_r_v<std::uint64_t, F, sgb_graph *>
    explicit graph(F call) : handle_(new sgb_graph SGB_NO_GRAPH) {
        must(call(handle_.get()));
        sgb_graph_sizes sizes;
        must(sgb_sizes(handle_.get(), &sizes));
        n_ = static_cast<std::uint32_t>(sizes.vertices);
        id_.resize(sizes.id);
        must(sgb_id(handle_.get(), id_.data(), id_.size()));
    }

    struct closer {
        void operator()(sgb_graph *graph) const {
            sgb_close(graph);
            delete graph;
        }
    };

    sgb_graph *held() const {
        if (!handle_) throw error(SGB_NOT_OPEN);
        return handle_.get();
    }

    std::uint64_t arcs_in(std::uint32_t first, std::uint32_t count) const {
        std::uint64_t arcs = 0;
        must(sgb_rows_size(held(), first, count, &arcs));
        return arcs;
    }

    // the handle stays at its address where the graph is moved
    std::unique_ptr<sgb_graph, closer> handle_;
    std::uint32_t n_ = 0;
    std::string id_;
};

// The lists of all vertices of a graph, so many vertices at a time: each is made when it is come to, and the last one
// may be shorter. It is gone through once, while its graph is open.
template <class Lists> class chunks_of {
public:
    class iterator {
    public:
        using value_type = Lists;
        using difference_type = std::ptrdiff_t;
        using iterator_concept = std::input_iterator_tag;

        const Lists &operator*() const { return part_; }
        const Lists *operator->() const { return &part_; }
        iterator &operator++() {
            make(part_.first() + part_.count());
            return *this;
        }
        void operator++(int) { ++*this; }
        friend bool operator==(const iterator &at, std::default_sentinel_t) { return at.part_.count() == 0; }

    private:
        friend class chunks_of;
        iterator(const graph *of, std::uint32_t size) : of_(of), size_(size) { make(0); }
        void make(std::uint32_t first) {
            const std::uint32_t count = std::min(size_, of_->n() - first);
            if constexpr (std::is_same_v<Lists, arc_lists>) part_ = of_->rows(first, count);
            else part_ = of_->tips(first, count);
        }
        const graph *of_;
        std::uint32_t size_;
        Lists part_;
    };
    iterator begin() const { return {of_, size_}; }
    std::default_sentinel_t end() const { return {}; }

private:
    friend class graph;
    chunks_of(const graph *of, std::uint32_t size) : of_(of), size_(size) {
        if (size == 0) throw std::invalid_argument("sgb: chunks of no vertices");
    }
    const graph *of_;
    std::uint32_t size_;
};

inline chunk_list graph::chunks(std::uint32_t size) const { return {this, size}; }
inline tip_chunk_list graph::tip_chunks(std::uint32_t size) const { return {this, size}; }

inline graph graph::make(std::span<const std::string> names, std::span<const std::uint32_t> from, std::span<const std::uint32_t> to,
                         std::span<const std::int64_t> lengths, bool directed, std::string_view id) {
    std::vector<std::uint64_t> starts = {0};
    std::string bytes;
    for (const std::string &name : names) {
        bytes += name;
        starts.push_back(bytes.size());
    }
    // a span of nothing may have no address
    static constexpr std::uint32_t no_end = 0;
    static constexpr std::int64_t no_length = 0;
    return graph([&](sgb_graph *made) {
        return sgb_make(starts.data(), starts.size(), bytes.data(), bytes.size(), from.empty() ? &no_end : from.data(), from.size(),
                        to.empty() ? &no_end : to.data(), to.size(), lengths.empty() ? &no_length : lengths.data(), lengths.size(),
                        directed, detail::address(id), id.size(), made);
    });
}

// Operations on two graphs, which stay open and as they are; one graph may be both. Vertices are the same where their numbers
// are; an edge is told by the arc from its smaller end.
//
// The vertices of the first with the arcs of both; parallel ones are one of the least length, unless `multi`.
inline graph gunion(const graph &first, const graph &second, bool multi = false, bool directed = false) {
    return graph([&](sgb_graph *made) { return sgb_gunion(first.held(), second.held(), multi, directed, made); });
}

// The vertices of the first with the arcs that both have; of parallel ones there is one, unless `multi`.
inline graph intersection(const graph &first, const graph &second, bool multi = false, bool directed = false) {
    return graph([&](sgb_graph *made) { return sgb_intersection(first.held(), second.held(), multi, directed, made); });
}

// The pairs of their vertices: u and v are vertex u * second.n() + v.
inline graph product(const graph &first, const graph &second, product_kind kind = product_kind::cartesian, bool directed = false) {
    return graph([&](sgb_graph *made) {
        return sgb_product(first.held(), second.held(), static_cast<std::int64_t>(kind), directed, made);
    });
}

// The same by the name of the product: "cartesian", "direct" or "strong"; std::invalid_argument where it is none of these.
inline graph product(const graph &first, const graph &second, std::string_view kind, bool directed = false) {
    if (kind == "cartesian") return product(first, second, product_kind::cartesian, directed);
    if (kind == "direct") return product(first, second, product_kind::direct, directed);
    if (kind == "strong") return product(first, second, product_kind::strong, directed);
    throw std::invalid_argument("sgb: no product: " + std::string(kind));
}

// What comes in the place of a vertex: 0 drops it, 1 keeps it, a greater number makes so many of it, one below 0 merges it with
// all others of that number; a graph that is open comes with its arcs.
class entry {
public:
    entry(std::int64_t number) : entry_{number, nullptr} {}
    entry(const graph &of) : entry_{0, of.held()} {}

private:
    friend graph induced(const graph &of, std::span<const entry> entries, bool self_loops, bool multi, bool directed);
    sgb_entry entry_;
};

// The graph with an entry in the place of each vertex; error 30 where there is not one for each.
inline graph induced(const graph &of, std::span<const entry> entries, bool self_loops = false, bool multi = false,
                     bool directed = false) {
    std::vector<sgb_entry> all;
    for (const entry &one : entries) all.push_back(one.entry_);
    // one place more than is handed over, so that there is always an address
    all.push_back({0, nullptr});
    return graph([&](sgb_graph *made) {
        return sgb_induced(of.held(), all.data(), all.size() - 1, self_loops, multi, directed, made);
    });
}
inline graph induced(const graph &of, std::initializer_list<entry> entries, bool self_loops = false, bool multi = false,
                     bool directed = false) {
    return induced(of, std::span<const entry>(entries.begin(), entries.size()), self_loops, multi, directed);
}

// n1 vertices, each joined to each of n2 others; error 30 where a number is below 0, 40 where there are too many
inline graph bi_complete(std::int64_t n1, std::int64_t n2, bool directed = false) {
    return graph([&](sgb_graph *made) { return sgb_bi_complete(n1, n2, directed, made); });
}

// n1 vertices in the middle, each joined to each of n in a circle; a graph in the middle
inline graph wheel(std::int64_t n, std::int64_t n1 = 1, bool directed = false) {
    return graph([&](sgb_graph *made) { return sgb_wheel(n, n1, directed, made); });
}
inline graph wheel_around(const graph &middle, std::int64_t n, bool directed = false) {
    return graph([&](sgb_graph *made) { return sgb_wheel_around(middle.held(), n, directed, made); });
}

// An edge or an arc of a graph of one's own.
struct edge {
    std::uint32_t from, to;
    std::int64_t length = 1;
};

namespace detail {

// a text that a graph may have
inline void must_be_text(std::string_view text, std::size_t most) {
    for (const char c : text)
        if (c < 32 || c > 126 || c == '"' || c == '\\') throw std::invalid_argument("sgb: no text of a graph: " + std::string(text));
    if (text.size() > most) throw std::invalid_argument("sgb: a text of more than " + std::to_string(most) + " bytes");
}

// that there is a graph of so many vertices with these edges, names and id
inline void must_be_graph(std::uint32_t n, std::span<const edge> edges, std::span<const std::string> names, std::string_view id) {
    if (n > 1'000'000'000) throw std::invalid_argument("sgb: more than 1000000000 vertices");
    if (!names.empty() && names.size() != n) throw std::invalid_argument("sgb: not a name for each vertex");
    for (const auto &[from, to, length] : edges)
        if (from >= n || to >= n) throw std::invalid_argument("sgb: an end is no vertex: " + std::to_string(from >= n ? from : to));
    for (const std::string &name : names) must_be_text(name, 4095);
    must_be_text(id, 160);
}

// the numbers of so many vertices as names
inline std::vector<std::string> numbers(std::uint32_t n) {
    std::vector<std::string> names;
    for (std::uint32_t v = 0; v < n; v++) names.push_back(std::to_string(v));
    return names;
}

// a string of a `.gb` file
inline std::string quoted(std::string_view text) { return '"' + std::string(text) + '"'; }

// Puts a record of these fields into a `.gb` file, whose lines have at most 79 bytes: a field that does not fit begins the
// next line, and goes on over as many as it wants, which end with a backslash.
inline void put_record(std::string &file, std::initializer_list<std::string> fields) {
    constexpr std::size_t most = 79;
    std::size_t used = 0, after = fields.size();
    for (std::string field : fields) {
        if (--after > 0) field += ',';
        std::string_view left = field;
        if (used + left.size() > most) {
            if (used > 0) file += '\n';
            for (used = 0; left.size() > most; left.remove_prefix(most - 1)) file.append(left.substr(0, most - 1)).append("\\\n");
        }
        file += left;
        used += left.size();
    }
    file += '\n';
}

} // namespace detail

// The `.gb` file of the graph of these edges, or arcs where it is directed, which the expression `stdin` stands for:
// sgb::graph g("lines(stdin,0)", sgb::file_of_edges(3, edges)). Lists have their arcs in the order in which the edges are
// given. Vertices have the numbers from 0 as names, unless names are given, one for each. std::invalid_argument where an end
// is no vertex, a text has other bytes than a file may have, or there are too many vertices.
inline std::string file_of_edges(std::uint32_t n, std::span<const edge> edges, bool directed = false,
                                 std::span<const std::string> names = {}, std::string_view id = "edges") {
    struct record {
        std::uint32_t tip;
        std::uint64_t next;
        std::int64_t length;
    };
    const std::uint64_t none = UINT64_MAX;
    detail::must_be_graph(n, edges, names, id);
    std::vector<std::uint64_t> firsts(n, none), lasts(n, none);
    std::vector<record> records;
    // puts a record at the end of a vertex's list
    const auto put = [&](std::uint32_t at, std::uint32_t tip, std::int64_t length) {
        (lasts[at] == none ? firsts[at] : records[lasts[at]].next) = records.size();
        lasts[at] = records.size();
        records.push_back({tip, none, length});
    };
    for (const auto &[from, to, length] : edges) {
        // of an edge the lower record is at the smaller end
        const std::uint32_t low = !directed && to < from ? to : from, high = !directed && to < from ? from : to;
        put(low, high, length);
        if (!directed) put(high, low, length);
    }
    const auto arc = [&](std::uint64_t k) { return k == none ? std::string("0") : "A" + std::to_string(k); };
    std::string file = "* GraphBase graph (util_types ZZZZZZZZZZZZZZ," + std::to_string(n) + "V," + std::to_string(records.size()) + "A)\n";
    detail::put_record(file, {detail::quoted(id), std::to_string(n), std::to_string(records.size())});
    file += "* Vertices\n";
    for (std::uint32_t v = 0; v < n; v++)
        detail::put_record(file, {detail::quoted(names.empty() ? std::to_string(v) : names[v]), arc(firsts[v])});
    file += "* Arcs\n";
    for (const record &one : records)
        detail::put_record(file, {"V" + std::to_string(one.tip), arc(one.next), std::to_string(one.length)});
    return file + "* Checksum -1\n";
}

// That graph, open, with the same lists; it is handed to sgb_make, and no file is written.
inline graph from_edges(std::uint32_t n, std::span<const edge> edges, bool directed = false, std::span<const std::string> names = {},
                        std::string_view id = "edges") {
    detail::must_be_graph(n, edges, names, id);
    std::vector<std::uint32_t> from, to;
    std::vector<std::int64_t> lengths;
    // of each list the last event comes first
    for (std::size_t k = edges.size(); k > 0; k--) {
        from.push_back(edges[k - 1].from);
        to.push_back(edges[k - 1].to);
        lengths.push_back(edges[k - 1].length);
    }
    return graph::make(names.empty() ? detail::numbers(n) : std::vector(names.begin(), names.end()), from, to, lengths, directed, id);
}

// so many draws of GB_FLIP from a generator that is started from `start`, after `skip` that are left out
inline std::vector<std::uint32_t> draws(std::int64_t start, std::uint64_t skip, std::size_t count) {
    std::vector<std::uint32_t> out(count + 1);
    sgb_draws(start, skip, out.data(), count);
    out.pop_back();
    return out;
}

// the same with uniform draws below m
inline std::vector<std::uint32_t> uniform_draws(std::int64_t start, std::uint64_t skip, std::uint32_t m, std::size_t count) {
    std::vector<std::uint32_t> out(count + 1);
    must(sgb_uniform_draws(start, skip, m, out.data(), count));
    out.pop_back();
    return out;
}

} // namespace sgb

#endif
