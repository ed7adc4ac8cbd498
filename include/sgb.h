/* The proved library of the Stanford GraphBase, for C: graphs by their official names, as arrays that the caller hands
 * in.
 *
 *     sgb_graph graph = SGB_NO_GRAPH;
 *     sgb_graph_sizes sizes;
 *     if (sgb_open("petersen()", 10, "", 0, &graph) == SGB_OK && sgb_sizes(&graph, &sizes) == SGB_OK) { .. }
 *     sgb_close(&graph);
 *
 * Link with libsgb.a or libsgb.so. The library calls malloc, realloc and free of the program, with memcpy, memmove and
 * memset, and nothing else; it has no state of its own, and writes nothing. What it holds is in the handles that are
 * open: sgb_close gives it back.
 *
 * A graph is named by an expression, as `sgb` takes it: "board(8,8,0,0,-1,0,0)", "petersen()", "lines(stdin,0)". The
 * expression `stdin` is the graph of the `.gb` file whose bytes are handed in as `input`; else these are not looked at.
 * A text has no zero byte at its end that would count: its length is handed in.
 *
 * The graph of a generator's call is not built when it is opened: board, simplex or subsets with its parameters, or a
 * name for one, as complete(5), circuit(5) or petersen(). So a board of 10^9 vertices is open at once, and its arrays
 * are had in runs. All other graphs are built. No call asks which of both a graph is.
 *
 * A run is `count` vertices of the graph, one after another from vertex `first` on: 0 and n for all. All of them have
 * to be there, or the answer is SGB_NO_VERTEX. No vertices from n on are a run too.
 *
 * Arrays belong to the caller, who hands in each with its length; what is in them before does not matter. A call fills
 * all of its arrays, or leaves all of them as they were: an array of another length than it must have is never written
 * to (SGB_WRONG_LENGTH). sgb_sizes, sgb_rows_size, sgb_names_size and sgb_file_size say which lengths these are.
 *
 * Memory. sgb_open takes what it holds, and so do sgb_make, the operations and lists of entries; an operand that is a
 * generator's, and not built, is built while an operation runs. The other calls on an open graph hold nothing more when
 * they have answered. On a graph that is built they take none; on a generator's sgb_arcs, sgb_names and the calls on
 * rows and tips may take some while they run, and sgb_file and sgb_file_size build the graph for that time. All other
 * calls never take any, sgb_names_size among them. Where memory is refused the answer is SGB_NO_ROOM, and all is as it
 * was before the call. A handle that is not open, a run that is not there and `starts` of a wrong length are told
 * before memory is taken, and so are a handle that is open already, a text that is too large, what is wrong with the
 * arrays of sgb_make, a product of too many pairs, and entries that sgb_induced_by refuses: no operand is built then.
 *
 * Stack. A generator's call is opened with at most 64 KB of stack, any other expression with at most 96 KB and 36 KB
 * more for each pair of parentheses in one another, of which there may be 64. All other calls take at most 64 KB.
 *
 * Threads. A handle is used by one call at a time; several handles may be open, and used by many threads at once. That
 * a handle may go to another thread, under a lock, is not proved: the library keeps nothing of a thread's.
 *
 * What a caller owes: each pointer leads to as many values as its length says, and is not NULL, also where the length
 * is 0 (any address that fits the type does then). What a call writes overlaps nothing else that it is handed; what it
 * reads may be the same bytes, as one literal for `text` and `input`. A handle begins as SGB_NO_GRAPH, a list of
 * entries as SGB_NO_ENTRIES; both are changed by these calls alone, and are not copied while they hold something.
 *
 * What is proved of each call stands in crates/sgb_c/src, of most in lib.rt: that the arrays hold what the definitions
 * say of the graph, that what an operation makes is what they describe, and when each answer comes.
 */
#ifndef SGB_H
#define SGB_H

#include <stdbool.h>
#include <stddef.h>
#include <stdint.h>

#if !defined __cplusplus && (!defined __STDC_VERSION__ || __STDC_VERSION__ < 199901L)
#error "sgb.h needs C99"
#endif
#if SIZE_MAX != UINT64_MAX
#error "sgb.h: the library is for machines whose size_t has 64 bits"
#endif

#ifdef __cplusplus
extern "C" {
#endif

/* The version of this header: a program may compare it with sgb_version(). */
#define SGB_VERSION "1.2.0"

/* Answers. */
#define SGB_OK 0                  /* the arrays are filled */
#define SGB_NO_ROOM 1             /* out of memory: all is as it was before the call */
#define SGB_EARLY_DATA_FAULT 10   /* the head of a `.gb` file is wrong */
#define SGB_LATE_DATA_FAULT 11    /* its end is wrong */
#define SGB_SYNTAX_ERROR 20       /* a record of it is wrong */
#define SGB_BAD_SPECS 30          /* parameters that make no sense */
#define SGB_VERY_BAD_SPECS 40     /* parameters that ask for too much */
#define SGB_INVALID_OPERAND 60    /* a graph that the operation cannot take */
#define SGB_TEXT_TOO_LARGE 100    /* a text of more than 65,536 bytes, or with over 64 parentheses in one another */
#define SGB_WRONG_LENGTH 101      /* an array has another length than it must have */
#define SGB_NO_INTEGERS 102       /* there is no such field, or it holds no integers */
#define SGB_BAD_BOUND 103         /* a uniform draw has a bound from 1 to 2^31 */
#define SGB_ALREADY_OPEN 104      /* the handle holds a graph, which stays: close it first */
#define SGB_NOT_OPEN 105          /* the handle holds no graph */
#define SGB_NO_VERTEX 106         /* some of the run's vertices are none of the graph; or an end of an arc is none */
#define SGB_NO_TEXT 107           /* sgb_make: a name or the id is no text: a byte is not from 32 to 126, or is " or \;
                                     or a name has more than 4,095 bytes, or the id more than 160 */
#define SGB_TOO_MANY 108          /* sgb_make: more vertices or arcs than a graph may have */
#define SGB_BAD_EXPRESSION 1000   /* this and more: the text is no expression; what is above 1000 is the length of the
                                     longest prefix of it that begins one */

/* The words of an answer, in which every language says it. Of a bad expression they are followed by " at byte " and the
 * length that the answer is above 1000. */
static inline const char *sgb_words(uint64_t answer) {
    switch (answer) {
    case SGB_OK: return "done";
    case SGB_NO_ROOM: return "out of memory";
    case SGB_EARLY_DATA_FAULT: return "the head of the .gb file is wrong";
    case SGB_LATE_DATA_FAULT: return "the end of the .gb file is wrong";
    case SGB_SYNTAX_ERROR: return "a record of the .gb file is wrong";
    case SGB_BAD_SPECS: return "parameters that make no sense";
    case SGB_VERY_BAD_SPECS: return "parameters that ask for too much";
    case SGB_INVALID_OPERAND: return "a graph that the operation cannot take";
    case SGB_TEXT_TOO_LARGE: return "the expression is too large";
    case SGB_WRONG_LENGTH: return "an array has another length than it must have";
    case SGB_NO_INTEGERS: return "there is no such field, or it holds no integers";
    case SGB_BAD_BOUND: return "a uniform draw has a bound from 1 to 2^31";
    case SGB_ALREADY_OPEN: return "a graph is open";
    case SGB_NOT_OPEN: return "no graph is open";
    case SGB_NO_VERTEX: return "there are not so many vertices";
    case SGB_NO_TEXT: return "a name or an id is no text";
    case SGB_TOO_MANY: return "more vertices or arcs than a graph may have";
    }
    return answer >= SGB_BAD_EXPRESSION ? "bad expression" : "something went wrong";
}

/* How large a graph is. */
typedef struct {
    uint64_t vertices; /* its vertices, n */
    uint64_t id;       /* the bytes of its id, at most 160 */
} sgb_graph_sizes;

/* A graph that is open, or none. Its fields are the library's. */
typedef struct {
    void *held;
    bool is_open;
} sgb_graph;

/* What a handle is before it is opened, and after it is closed. */
#define SGB_NO_GRAPH { 0, false }

/* Entries of an induced graph, or none. Its fields are the library's. */
typedef struct {
    void *held;
    bool is_held;
} sgb_entries;

/* What a list of entries is before the first one is added, and after it is closed. */
#define SGB_NO_ENTRIES { 0, false }

/* Opens the graph that the text names, and holds it. */
uint64_t sgb_open(const char *text, size_t text_len, const char *input, size_t input_len, sgb_graph *graph);

/* Makes the graph of these names and of these arcs (`directed`) or edges (else), each put in order: one leads from
 * from[k] to to[k], and lengths[k] is its length. Later ones come first in the lists. The name of vertex v is what
 * stands in `names` from name_starts[v] up to name_starts[v + 1]; name_starts[0] is 0.
 * `name_starts` has a place more than there are vertices, as sgb_names fills it; `from`, `to` and `lengths` have as
 * many places as one another, or the answer is SGB_WRONG_LENGTH. An end that is no vertex is answered with
 * SGB_NO_VERTEX. */
uint64_t sgb_make(const uint64_t *name_starts, size_t name_starts_len, const char *names, size_t names_len,
                  const uint32_t *from, size_t from_len, const uint32_t *to, size_t to_len, const int64_t *lengths,
                  size_t lengths_len, bool directed, const char *id, size_t id_len, sgb_graph *result);

/* The operations of GB_BASIC on graphs that are open, as in expressions. What is made is held by `result`, built, with
 * its official id; the operands stay open, and are as they were. `result` is another handle than each operand, and
 * holds no graph (SGB_ALREADY_OPEN); an operand that is not open is answered with SGB_NOT_OPEN. What GB_BASIC refuses
 * is answered as sgb_open answers it. */

/* complement(graph, copy, self_loops, directed): a copy without parallel arcs where `copy` */
uint64_t sgb_complement(sgb_graph *graph, bool copy, bool self_loops, bool directed, sgb_graph *result);

/* lines(graph, directed) */
uint64_t sgb_lines(sgb_graph *graph, bool directed, sgb_graph *result);

/* bi_complete(n1, n2, directed) */
uint64_t sgb_bi_complete(int64_t n1, int64_t n2, bool directed, sgb_graph *result);

/* wheel(n, n1, directed) */
uint64_t sgb_wheel(int64_t n, int64_t n1, bool directed, sgb_graph *result);

/* gunion(first, second, multi, directed), intersection(..) and product(first, second, type, directed): of two handles
 * that are not the same, and of one graph with itself. sgb_gunion, sgb_intersection and sgb_product below are both. */
uint64_t sgb_gunion_of(sgb_graph *first, sgb_graph *second, bool multi, bool directed, sgb_graph *result);
uint64_t sgb_intersection_of(sgb_graph *first, sgb_graph *second, bool multi, bool directed, sgb_graph *result);
uint64_t sgb_product_of(sgb_graph *first, sgb_graph *second, int64_t type, bool directed, sgb_graph *result);
uint64_t sgb_gunion_self(sgb_graph *graph, bool multi, bool directed, sgb_graph *result);
uint64_t sgb_intersection_self(sgb_graph *graph, bool multi, bool directed, sgb_graph *result);
uint64_t sgb_product_self(sgb_graph *graph, int64_t type, bool directed, sgb_graph *result);

/* Adds an entry to a list: a number, as it stands in the list of induced(..), or a copy of an open graph. Where memory
 * is refused the list has the entries that it had. */
uint64_t sgb_entries_number(sgb_entries *entries, int64_t number);
uint64_t sgb_entries_graph(sgb_entries *entries, sgb_graph *graph);

/* Gives the list back, if there is one. */
void sgb_entries_close(sgb_entries *entries);

/* induced(graph, entries, self_loops, multi, directed). The list stays. sgb_induced below makes the list, too. */
uint64_t sgb_induced_by(sgb_graph *graph, sgb_entries *entries, bool self_loops, bool multi, bool directed,
                        sgb_graph *result);

/* Gives the graph back, if one is open. */
void sgb_close(sgb_graph *graph);

/* The sizes of the graph, at once. */
uint64_t sgb_sizes(sgb_graph *graph, sgb_graph_sizes *sizes);

/* The arcs that the graph counts, m, where an edge counts as two; 2^64 - 1 also where there are more. Of a generator's
 * graph they are counted without their lists: of a board by its displacements, of a simplex at once; subsets are walked
 * over where sum and wanted sizes are great for a table, which takes long where there are many. */
uint64_t sgb_arcs(sgb_graph *graph, uint64_t *arcs);

/* The arcs on the lists of a run; 2^64 - 1 also where there are more. Of all vertices these are as many as sgb_arcs
 * says, but for some graphs of files, in which vertices share a list. */
uint64_t sgb_rows_size(sgb_graph *graph, uint32_t first, uint32_t count, uint64_t *arcs);

/* The bytes of the names of a run, all together. */
uint64_t sgb_names_size(sgb_graph *graph, uint32_t first, uint32_t count, uint64_t *bytes);

/* The lists of arcs of a run, one after another, each in its order. The list of vertex first + k is what stands in
 * `tips` and `lengths` from starts[k] up to starts[k + 1], where each arc leads, and its length; starts[0] is 0. A tip
 * is a vertex of the whole graph.
 * `starts` has count + 1 places, `tips` and `lengths` as many as sgb_rows_size says. */
uint64_t sgb_rows(sgb_graph *graph, uint32_t first, uint32_t count, uint64_t *starts, size_t starts_len, uint32_t *tips,
                  size_t tips_len, int64_t *lengths, size_t lengths_len);

/* The same without lengths. */
uint64_t sgb_tips(sgb_graph *graph, uint32_t first, uint32_t count, uint64_t *starts, size_t starts_len, uint32_t *tips,
                  size_t tips_len);

/* The names of a run, one after another, with nothing between them. The name of vertex first + k is what stands in
 * `bytes` from starts[k] up to starts[k + 1]; starts[0] is 0.
 * `starts` has count + 1 places, `bytes` as many as sgb_names_size says. */
uint64_t sgb_names(sgb_graph *graph, uint32_t first, uint32_t count, uint64_t *starts, size_t starts_len, char *bytes,
                   size_t bytes_len);

/* The same names as lines of a text, each with a newline behind it, of arrays as sgb_names fills them: a language that
 * splits a text at once has all of them sooner so. No graph is asked, and no name has a newline in it.
 * `starts` begins with 0, falls nowhere, and ends with the number of bytes; `lines` has as many places as there are
 * bytes and names together. Else the answer is SGB_WRONG_LENGTH. */
uint64_t sgb_name_lines(const uint64_t *starts, size_t starts_len, const char *bytes, size_t bytes_len, char *lines,
                        size_t lines_len);

/* The integers of a run in a utility field of the vertices: u, v, w, x, y, z are the fields 0 to 5. In 3, 4, 5 the
 * vertices of board, simplex and subsets have the first three coordinates.
 * `values` has count places. */
uint64_t sgb_ints(sgb_graph *graph, uint32_t field, uint32_t first, uint32_t count, int64_t *values, size_t values_len);

/* The id: the graph's official name. No zero byte comes after it.
 * `bytes` has as many places as the `id` of sgb_sizes says. */
uint64_t sgb_id(sgb_graph *graph, char *bytes, size_t bytes_len);

/* What the utility fields hold, a letter each of Z I V S A (GB_GRAPH, util_types): of vertices u v w x y z, of arcs a
 * b, of the graph uu vv ww xx yy zz. Z is a field that is not used, I an integer; V a vertex, S a string, A an arc.
 * `letters` has 14 places, and no zero byte comes after them. */
uint64_t sgb_kinds(sgb_graph *graph, char *letters, size_t letters_len);

/* The bytes that the graph's `.gb` file has; 2^64 - 1 also where it has more. It is made, and not kept: this takes as
 * long as sgb_file. */
uint64_t sgb_file_size(sgb_graph *graph, uint64_t *size);

/* The graph's `.gb` file (GB_SAVE, save_graph), as `sgb save` writes it.
 * `bytes` has as many places as sgb_file_size says. */
uint64_t sgb_file(sgb_graph *graph, char *bytes, size_t bytes_len);

/* Random numbers of GB_FLIP: a generator is started from `start`, its first `skip` draws are left out, and the next
 * ones fill `out`. */
void sgb_draws(int64_t start, uint64_t skip, uint32_t *out, size_t out_len);

/* The same with uniform draws below m, which is from 1 to 2^31; else the answer is SGB_BAD_BOUND. */
uint64_t sgb_uniform_draws(int64_t start, uint64_t skip, uint32_t m, uint32_t *out, size_t out_len);

/* The version of the library that runs: 1000000 for its first number, 1000 for its second, 1 for its third, so that
 * 1.2.3 is 1002003. */
uint64_t sgb_version(void);

/* The union of two open graphs, which may be one and the same. */
static inline uint64_t sgb_gunion(sgb_graph *first, sgb_graph *second, bool multi, bool directed, sgb_graph *result) {
    return first == second ? sgb_gunion_self(first, multi, directed, result)
                           : sgb_gunion_of(first, second, multi, directed, result);
}

/* Their intersection. */
static inline uint64_t sgb_intersection(sgb_graph *first, sgb_graph *second, bool multi, bool directed,
                                        sgb_graph *result) {
    return first == second ? sgb_intersection_self(first, multi, directed, result)
                           : sgb_intersection_of(first, second, multi, directed, result);
}

/* Their product: the type is 0 for the cartesian one, 1 for the direct one, 2 for the strong one. */
static inline uint64_t sgb_product(sgb_graph *first, sgb_graph *second, int64_t type, bool directed,
                                   sgb_graph *result) {
    return first == second ? sgb_product_self(first, type, directed, result)
                           : sgb_product_of(first, second, type, directed, result);
}

/* An entry of an induced graph: the open graph, or where that is NULL the number. */
typedef struct {
    int64_t number;
    sgb_graph *graph;
} sgb_entry;

/* The graph that these entries induce of an open graph, which may be an entry, too. */
static inline uint64_t sgb_induced(sgb_graph *graph, const sgb_entry *entries, size_t entries_len, bool self_loops,
                                   bool multi, bool directed, sgb_graph *result) {
    sgb_entries list = SGB_NO_ENTRIES;
    uint64_t answer = SGB_OK;
    size_t k;
    if (result->is_open) return SGB_ALREADY_OPEN;
    if (!graph->is_open) return SGB_NOT_OPEN;
    for (k = 0; k < entries_len && answer == SGB_OK; k++)
        answer = entries[k].graph ? sgb_entries_graph(&list, entries[k].graph)
                                  : sgb_entries_number(&list, entries[k].number);
    if (answer == SGB_OK) answer = sgb_induced_by(graph, &list, self_loops, multi, directed, result);
    sgb_entries_close(&list);
    return answer;
}

/* The wheel of n vertices in a circle around an open graph in the middle (GB_BASIC): induced of
 * board(2,0,0,0,1,0,directed) with the entries `middle` and board(n,0,0,0,1,1,directed). */
static inline uint64_t sgb_wheel_around(sgb_graph *middle, int64_t n, bool directed, sgb_graph *result) {
    sgb_graph pair = SGB_NO_GRAPH, rim = SGB_NO_GRAPH;
    sgb_graph_sizes sizes;
    sgb_entry entries[2];
    char pair_text[] = "board(2,0,0,0,1,0,0)", rim_text[] = "board(0000000000,0,0,0,1,1,0)";
    char *digit = rim_text + sizeof "board(0000000000" - 1;
    uint64_t answer, left = n > 0 ? (uint64_t)n : 0;
    if (result->is_open) return SGB_ALREADY_OPEN;
    answer = sgb_sizes(middle, &sizes);
    if (answer != SGB_OK) return answer;
    /* refused before anything is built */
    if (left > 1000000000 - sizes.vertices) return SGB_VERY_BAD_SPECS;
    for (; left; left /= 10) *--digit = (char)('0' + left % 10);
    if (directed) pair_text[sizeof pair_text - 3] = rim_text[sizeof rim_text - 3] = '1';
    answer = sgb_open(rim_text, sizeof rim_text - 1, "", 0, &rim);
    if (answer == SGB_OK) answer = sgb_open(pair_text, sizeof pair_text - 1, "", 0, &pair);
    entries[0].number = entries[1].number = 0;
    entries[0].graph = middle;
    entries[1].graph = &rim;
    if (answer == SGB_OK) answer = sgb_induced(&pair, entries, 2, false, false, directed, result);
    sgb_close(&pair);
    sgb_close(&rim);
    return answer;
}

#ifdef __cplusplus
}
#endif

#endif
