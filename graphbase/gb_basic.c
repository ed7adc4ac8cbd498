/* GB_BASIC: each graph is made by the proved library, and taken of it. */
#include "gb_basic.h"

#include <stdlib.h>

#include "handed.h"

#define MOST_WRITTEN 999999999999999999LL /* that an expression can have: 18 digits */
#define DESCRIPTION_BYTES 64             /* of a description that an id has room for */

static Graph *refused(long code) {
    panic_code = code;
    return NULL;
}

/* Generators, and the operations on numbers: by their official names */

static Graph *named(const char *name) {
    sgb_graph held = SGB_NO_GRAPH;
    return sgb_taken(sgb_open(name, strlen(name), "", 0, &held), &held);
}

/* What is greater than an expression can have is refused as the greatest that it can. */
static long long written(long long number) {
    return number > MOST_WRITTEN ? MOST_WRITTEN : number < -MOST_WRITTEN ? -MOST_WRITTEN : number;
}

static long long written_count(unsigned long long number) {
    return number > (unsigned long long)MOST_WRITTEN ? MOST_WRITTEN : (long long)number;
}

Graph *board(long n1, long n2, long n3, long n4, long piece, long wrap, long directed) {
    char name[200];
    if (written(wrap) != wrap) return refused(very_bad_specs);
    sprintf(name, "board(%lld,%lld,%lld,%lld,%lld,%lld,%d)", written(n1), written(n2), written(n3), written(n4),
            written(piece), written(wrap), directed != 0);
    return named(name);
}

Graph *simplex(unsigned long n, long n0, long n1, long n2, long n3, long n4, long directed) {
    char name[200];
    sprintf(name, "simplex(%lld,%lld,%lld,%lld,%lld,%lld,%d)", written_count(n), written(n0), written(n1), written(n2),
            written(n3), written(n4), directed != 0);
    return named(name);
}

Graph *subsets(unsigned long n, long n0, long n1, long n2, long n3, long n4, unsigned long size_bits, long directed) {
    char name[200];
    sprintf(name, "subsets(%lld,%lld,%lld,%lld,%lld,%lld,0x%lx,%d)", written_count(n), written(n0), written(n1), written(n2),
            written(n3), written(n4), size_bits, directed != 0);
    return named(name);
}

Graph *bi_complete(unsigned long n1, unsigned long n2, long directed) {
    char name[100];
    sprintf(name, "bi_complete(%lld,%lld,%d)", written_count(n1), written_count(n2), directed != 0);
    return named(name);
}

Graph *wheel(unsigned long n, unsigned long n1, long directed) {
    char name[100];
    sprintf(name, "wheel(%lld,%lld,%d)", written_count(n), written_count(n1), directed != 0);
    return named(name);
}

/* Operations on one graph */

Graph *complement(Graph *g, long copy, long self, long directed) {
    sgb_graph operand = SGB_NO_GRAPH, result = SGB_NO_GRAPH;
    Graph *made;
    char end[20];
    long code = g ? sgb_open_operand(g, &operand) : missing_operand;
    if (code) return refused(code);
    made = sgb_taken(sgb_complement(&operand, copy != 0, self != 0, directed != 0, &result), &result);
    sgb_close(&operand);
    sprintf(end, ",%d,%d,%d)", copy != 0, self != 0, directed != 0);
    if (made) make_compound_id(made, "complement(", g, end);
    return made;
}

/* The next arc that is a line: undirected each edge once, from its smaller end, and of a loop the first of its two. */
static Arc *next_line(const Vertex *v, Arc *a, int is_first, long is_directed) {
    if (!is_first) {
        int is_loop = !is_directed && a->tip == v && a->next == a + 1;
        a = is_loop ? a->next->next : a->next;
    }
    while (a && !is_directed && a->tip < v) a = a->next;
    return a;
}

/* The ends of each line, from those of the last vertex on. */
static void set_lines(Graph *made, Graph *g, long is_directed) {
    Vertex *line = made->vertices, *v;
    Arc *a;
    for (v = g->vertices + g->n; v-- > g->vertices;)
        for (a = next_line(v, v->arcs, 1, is_directed); a; a = next_line(v, a, 0, is_directed), line++) {
            line->u.V = v;
            line->v.V = a->tip;
            line->w.A = a;
        }
}

Graph *lines(Graph *g, long directed) {
    sgb_graph operand = SGB_NO_GRAPH, result = SGB_NO_GRAPH;
    Graph *made;
    long code = g ? sgb_open_operand(g, &operand) : missing_operand;
    if (code) return refused(code);
    made = sgb_taken(sgb_lines(&operand, directed != 0, &result), &result);
    sgb_close(&operand);
    if (!made) return NULL;
    make_compound_id(made, "lines(", g, directed ? ",1)" : ",0)");
    set_lines(made, g, directed);
    return made;
}

/* Operations on two graphs, which may be one */

/* Opens both; the second is the first where they are one graph. */
static long open_two(Graph *g, Graph *gg, sgb_graph held[2], sgb_graph **second) {
    long code = g && gg ? sgb_open_operand(g, &held[0]) : missing_operand;
    *second = &held[g != gg];
    if (!code && g != gg) code = sgb_open_operand(gg, &held[1]);
    if (code) sgb_close(&held[0]);
    return code;
}

typedef uint64_t operation(sgb_graph *, sgb_graph *, long, bool, sgb_graph *);

static uint64_t union_of(sgb_graph *one, sgb_graph *other, long multi, bool directed, sgb_graph *result) {
    return sgb_gunion(one, other, multi != 0, directed, result);
}

static uint64_t intersection_of(sgb_graph *one, sgb_graph *other, long multi, bool directed, sgb_graph *result) {
    return sgb_intersection(one, other, multi != 0, directed, result);
}

static uint64_t product_of(sgb_graph *one, sgb_graph *other, long type, bool directed, sgb_graph *result) {
    return sgb_product(one, other, type, directed, result);
}

/* `shown` is how the id shows the number. */
static Graph *of_two(operation *of, char *name, Graph *g, Graph *gg, long number, int shown, long directed) {
    sgb_graph held[2] = {SGB_NO_GRAPH, SGB_NO_GRAPH}, result = SGB_NO_GRAPH, *second;
    Graph *made;
    char end[20];
    long code = open_two(g, gg, held, &second);
    if (code) return refused(code);
    made = sgb_taken(of(&held[0], second, number, directed != 0, &result), &result);
    sgb_close(&held[0]);
    sgb_close(&held[1]);
    sprintf(end, ",%d,%d)", shown, directed != 0);
    if (made) make_double_compound_id(made, name, g, ",", gg, end);
    return made;
}

Graph *gunion(Graph *g, Graph *gg, long multi, long directed) {
    return of_two(union_of, "gunion(", g, gg, multi, multi != 0, directed);
}

Graph *intersection(Graph *g, Graph *gg, long multi, long directed) {
    return of_two(intersection_of, "intersection(", g, gg, multi, multi != 0, directed);
}

Graph *product(Graph *g, Graph *gg, long type, long directed) {
    int shown = type == 0 ? cartesian : type % 2 ? direct : strong;
    return of_two(product_of, "product(", g, gg, type, shown, directed);
}

/* Induced graphs */

static uint64_t add_graph(sgb_entries *entries, Graph *g) {
    sgb_graph held = SGB_NO_GRAPH;
    uint64_t answer = g ? (uint64_t)sgb_open_operand(g, &held) : missing_operand + 1;
    if (answer == SGB_OK) answer = sgb_entries_graph(entries, &held);
    sgb_close(&held);
    return answer;
}

static uint64_t add_entries(sgb_entries *entries, const Graph *g) {
    uint64_t answer = SGB_OK;
    const Vertex *v;
    for (v = g->vertices; v < g->vertices + g->n && answer == SGB_OK; v++)
        answer = v->ind < IND_GRAPH ? sgb_entries_number(entries, v->ind) : add_graph(entries, v->subst);
    return answer;
}

Graph *induced(Graph *g, char *description, long self, long multi, long directed) {
    sgb_graph operand = SGB_NO_GRAPH, result = SGB_NO_GRAPH;
    sgb_entries entries = SGB_NO_ENTRIES;
    Graph *made;
    char end[DESCRIPTION_BYTES + 20];
    uint64_t answer;
    long code = g ? sgb_open_operand(g, &operand) : missing_operand;
    if (code) return refused(code);
    answer = add_entries(&entries, g);
    if (answer == SGB_OK)
        answer = sgb_induced_by(&operand, &entries, self != 0, multi != 0, directed != 0, &result);
    sgb_entries_close(&entries);
    sgb_close(&operand);
    made = sgb_taken(answer, &result);
    sprintf(end, ",%.*s,%d,%d,%d)", DESCRIPTION_BYTES, description ? description : null_string, self != 0, multi != 0,
            directed != 0);
    if (made) make_compound_id(made, "induced(", g, end);
    return made;
}
