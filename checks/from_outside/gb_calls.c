/* GraphBase's own calls as libgb has them (checks/from_outside/graphbase.py): what the table of conformance/ does not show. It
 * prints a line for each thing that is not right, and last how many were looked at.
 *
 *     gb_calls FOLDER    files are put into this folder */
#include <limits.h>
#include <stdbool.h>
#include <stdint.h>
#include <stdlib.h>

#include "gb_graph.h"

#include "gb_basic.h"
#include "gb_flip.h"
#include "gb_looked.h"
#include "gb_save.h"
#include "sgb.h"

static void is_text(const char *seen, const char *wanted, const char *what) {
    looked++;
    if (strcmp(seen, wanted) == 0) return;
    wrong++;
    printf("%s: %s, and not %s\n", what, seen, wanted);
}

/* A call that answers NULL, with this code. */
static void is_refused(Graph *g, long code, const char *what) {
    is(g == NULL, what, 0);
    is(panic_code == code, what, panic_code);
    panic_code = 0;
    gb_recycle(g);
}

static Graph *there(Graph *g, const char *what) {
    is(g != NULL, what, panic_code);
    if (!g) exit(1);
    return g;
}

/* ------------------------------------------------------------------------------------------------------------------- */

static Arc *mate_of(Arc *a) { return (siz_t)a & edge_trick ? a - 1 : a + 1; }

/* The two arcs of each edge lie side by side, and their addresses tell which is which. */
static void edges(Graph *g, const char *what) {
    Vertex *v;
    Arc *a;
    long seen = 0;
    for (v = g->vertices; v < g->vertices + g->n; v++)
        for (a = v->arcs; a; a = a->next, seen++) {
            is(mate_of(a)->tip == v && mate_of(a)->len == a->len, what, v - g->vertices);
            is(v <= a->tip || ((siz_t)a & edge_trick), what, v - g->vertices);
        }
    is(seen == g->m, what, seen);
    for (v = g->vertices + g->n; v < g->vertices + g->n + extra_n; v++) is(!v->arcs && !*v->name, what, 0);
    gb_recycle(g);
}

static void layouts(void) {
    Graph *g;
    long k;
    edges(there(board(8L, 8L, 0L, 0L, 5L, 0L, 0L), "board"), "edges of a board");
    edges(there(board(3L, 3L, 0L, 0L, -2L, 3L, 0L), "board"), "edges of a board with wrapped sides");
    edges(there(simplex(4L, 2L, -2L, 0L, 0L, 0L, 0L), "simplex"), "edges of a simplex");
    edges(there(wheel(5L, 2L, 0L), "wheel"), "edges of a wheel");
    edges(there(petersen(), "petersen"), "edges of subsets");
    g = there(gb_new_graph(100L), "gb_new_graph");
    is_text(g->id, "gb_new_graph(100)", "an id");
    for (k = 0; k < 300; k++) gb_new_edge(g->vertices + 7 * k % 100, g->vertices + 11 * k % 100, k);
    is(g->m == 600, "arcs of a new graph", g->m);
    gb_recycle(there(intersection(g, g, 1L, 0L), "intersection of what has many blocks"));
    switch_to_graph(g);
    edges(g, "edges of a new graph");
    /* after one arc the next two of an edge do not fit into a block any more: no byte behind it is written to */
    g = there(gb_new_graph(2L), "gb_new_graph");
    gb_new_arc(g->vertices, g->vertices + 1, 1L);
    for (k = 0; k < 200; k++) gb_new_edge(g->vertices, g->vertices + 1, k);
    is(g->m == 401, "an arc and edges", g->m);
    gb_recycle(g);
    g = there(board(2L, 0L, 0L, 0L, 1L, 0L, 0L), "board");
    gb_new_edge(g->vertices, g->vertices + 1, 9L); /* it is the current graph */
    is(g->m == 4 && g->vertices->arcs->len == 9, "an edge more", g->m);
    gb_recycle(g);
    g = there(bi_complete(3L, 4L, 0L), "bi_complete");
    is(g->n_1 == 3 && g->util_types[8] == 'I', "the first part", g->n_1);
    gb_recycle(g);
}

static void areas(void) {
    static Area s;
    char *one, *other;
    long *numbers;
    init_area(s);
    one = gb_alloc(5L, s);
    other = gb_alloc(1000L, s);
    is((*s)->first == other && (*s)->next->first == one, "blocks of an area", 0);
    is(one + 5 <= (char *)(*s)->next && other + 1000 <= (char *)*s, "ends of blocks", 0);
    numbers = gb_typed_alloc(100, long, s);
    is(numbers && numbers[0] == 0 && numbers[99] == 0, "a block of numbers", 0);
    is(!gb_alloc(0L, s) && gb_trouble_code == 2, "no bytes", gb_trouble_code);
    gb_trouble_code = 0;
    is(!gb_alloc(LONG_MAX, s) && gb_trouble_code == 1, "too many bytes", gb_trouble_code);
    gb_trouble_code = 0;
    gb_free(s);
    is(*s == NULL, "an area that was given back", 0);
}

static void two_graphs(void) {
    Graph *g = there(gb_new_graph(3L), "gb_new_graph"), *gg;
    char *name = gb_save_string("first"), long_name[3000];
    is_text(name, "first", "a string");
    gb_new_arc(g->vertices, g->vertices + 1, 1L);
    switch_to_graph(NULL);
    gg = there(gb_new_graph(2L), "gb_new_graph");
    gb_new_arc(gg->vertices, gg->vertices + 1, 2L);
    switch_to_graph(g);
    gb_new_arc(g->vertices, g->vertices + 2, 3L);
    is(g->vertices->arcs == g->vertices->arcs->next + 1, "two arcs of a graph that was left", 0);
    is(gb_save_string("second") == name + 6, "two strings of a graph that was left", 0);
    is(!g->ww.A && !g->xx.A && !g->yy.S && !g->zz.S, "fields of a current graph", 0);
    is(g->m == 2 && gg->m == 1 && gg->ww.A == gg->vertices->arcs + 1, "a graph that is left", gg->m);
    memset(long_name, 'n', sizeof long_name);
    long_name[sizeof long_name - 1] = '\0';
    is_text(gb_save_string(long_name), long_name, "a long string");
    is(gb_save_string("third") != NULL, "one more string", 0);
    gb_recycle(gg);
    gb_recycle(g);
    gb_recycle(NULL);
}

static void names_found(void) {
    Graph *g = there(board(20L, 20L, 0L, 0L, 1L, 0L, 0L), "board"), *gg = there(gb_new_graph(1L), "gb_new_graph");
    Vertex *v;
    hash_setup(g);
    is(g->util_types[0] == 'V' && g->util_types[1] == 'V', "types of the fields of names", 0);
    for (v = g->vertices; v < g->vertices + g->n; v++) is(hash_lookup(v->name, g) == v, "a vertex by its name", v - g->vertices);
    is(!hash_lookup("20.0", g) && !hash_lookup("", g) && !hash_lookup("1.1", NULL), "no vertex of a name", 0);
    gg->vertices->name = gb_save_string("here"); /* of the current graph, which is gg still */
    hash_in(gg->vertices);
    is(hash_out("here") == gg->vertices && !hash_out("there"), "a vertex of the current graph", 0);
    gb_recycle(gg);
    gb_recycle(g);
}

static void ids(void) {
    Graph *g = there(gb_new_graph(1L), "gb_new_graph"), *gg = there(gb_new_graph(1L), "gb_new_graph");
    char wanted[400], many[73];
    memset(gg->id, 'x', 160);
    make_compound_id(g, "f(", gg, ",0)");
    sprintf(wanted, "f(%.151s...),0)", gg->id);
    is_text(g->id, wanted, "an id that is cut");
    strcpy(gg->id, "g \"\\ \351");
    make_compound_id(gg, "f(", gg, ",0)");
    is_text(gg->id, "f(g \"\\ \351,0)", "an id of itself");
    memset(g->id, 'y', 160);
    make_double_compound_id(g, "f(", g, ",", gg, ",1)");
    memset(many, 'y', 72);
    many[72] = '\0';
    sprintf(wanted, "f(%s...),%s...),1)", many, gg->id);
    is_text(g->id, wanted, "an id of two");
    gb_recycle(g);
    gb_recycle(gg);
}

static void random_numbers(void) {
    static const long starts[] = {-314159, 0, 1, 2147483647L, 2147483648L, LONG_MIN, LONG_MAX};
    static uint32_t wanted[400];
    size_t s, k;
    for (s = 0; s < sizeof starts / sizeof *starts; s++) {
        gb_init_rand(starts[s]);
        sgb_draws(starts[s], 0, wanted, 400);
        for (k = 0; k < 400; k++) is(gb_next_rand() == (long)wanted[k], "a draw", (long)k);
        gb_init_rand(starts[s]);
        is(sgb_uniform_draws(starts[s], 0, 1431655765, wanted, 400) == SGB_OK, "uniform draws", (long)s);
        for (k = 0; k < 400; k++) is(gb_unif_rand(1431655765L) == (long)wanted[k], "a uniform draw", (long)k);
        is(gb_unif_rand(1L) == 0 && gb_unif_rand(2147483648L) >= 0, "the least bound and the greatest", (long)s);
    }
}

/* ------------------------------------------------------------------------------------------------------------------- */

static Graph *saved(Graph *g, long anomalies, const char *what) {
    long seen = save_graph(g, path);
    is(seen == anomalies, what, seen);
    return there(restore_graph(path), what);
}

/* What a file does not tell. */
static void anomalies(void) {
    Graph *g = there(gb_new_graph(2L), "gb_new_graph"), *back;
    static char name[5000];
    Vertex outside;
    memset(&outside, 0, sizeof outside);
    is(save_graph(NULL, path) == -1 && save_graph(g, "/nowhere/at/all") == -3, "no graph, no file", 0);
    gb_new_arc(g->vertices, g->vertices + 1, 5L);
    gb_recycle(saved(g, 0, "a plain graph"));
    g->util_types[0] = 'G';
    g->vertices->z.I = 1;
    gb_recycle(saved(g, bad_type_code | ignored_data, "a type that no file has"));
    g->util_types[0] = 'Z';
    g->util_types[5] = 'I';
    memset(name, 'n', sizeof name - 1);
    g->vertices->name = name;
    back = saved(g, string_too_long, "a name that is too long");
    is(strlen(back->vertices->name) == 4095, "a name that was cut", (long)strlen(back->vertices->name));
    is(back->vertices->z.I == 1 && back->vertices->arcs->tip == back->vertices + 1, "a field and an arc", 0);
    gb_recycle(back);
    g->vertices->name = "say \"a\\b\"\n\351";
    back = saved(g, bad_string_chars, "a name with bad bytes");
    is_text(back->vertices->name, "say ?a?b???", "a name of good bytes");
    gb_recycle(back);
    g->vertices->name = "";
    g->util_types[3] = 'V';
    g->vertices->x.V = &outside;
    back = saved(g, addr_not_in_data_area, "an address outside");
    is(back->vertices->x.V == NULL, "no address", 0);
    gb_recycle(back);
    g->util_types[4] = 'A';
    g->vertices->x.V = (Vertex *)1;
    g->vertices->y.A = (Arc *)(void *)(g->vertices + 1);
    gb_recycle(saved(g, addr_in_mixed_block, "a vertex as an arc"));
    gb_recycle(g);
}

/* Vertices that were put into a greater block; one of the first block is in use still. */
static void more_vertices(void) {
    Graph *g = there(gb_new_graph(1L), "gb_new_graph"), *back;
    g->vertices->name = "old";
    g->uu.V = g->vertices;
    g->util_types[8] = 'V';
    gb_new_arc(g->vertices, g->vertices, 1L);
    g->vertices = gb_typed_alloc(2, Vertex, g->data);
    g->n = 2;
    g->vertices[0].name = "new";
    g->vertices[1].name = "newer";
    gb_new_edge(g->vertices, g->vertices + 1, 2L);
    back = saved(g, 0, "more vertices");
    is(back->n == 2 && back->uu.V == back->vertices + 2, "the first block", back->n);
    is_text(back->vertices->name, "new", "the first vertex");
    is_text(back->uu.V->name, "old", "a vertex of the first block");
    gb_recycle(back);
    gb_recycle(g);
}

/* Fields of all kinds, vertices beside those of the graph, arcs on no list, a name twice. */
static void fields(void) {
    Graph *g = there(gb_new_graph(2L), "gb_new_graph"), *back;
    Vertex *more = gb_typed_alloc(3, Vertex, g->data);
    Arc *arcs = gb_typed_alloc(3, Arc, g->data);
    strcpy(g->util_types, "VASIZZVAVASIZZ");
    gb_new_edge(g->vertices, g->vertices + 1, -7L);
    more[1].name = "beside";
    more[1].u.V = g->vertices;
    g->vertices->u.V = more + 1;
    g->vertices->v.A = arcs + 1;
    g->vertices->w.S = "a string";
    g->vertices->x.I = LONG_MIN;
    arcs[1].tip = (Vertex *)1;
    arcs[1].len = LONG_MAX;
    arcs[1].b.A = g->vertices->arcs;
    g->uu.V = more + 1;
    g->vv.A = arcs + 1;
    g->ww.S = "text";
    g->xx.I = 12;
    back = saved(g, 0, "fields of all kinds");
    is(back->n == 2 && back->m == 2 && back->uu.V == back->vertices + 3, "a vertex beside the others", back->n);
    is_text(back->uu.V->name, "beside", "its name");
    is(back->uu.V->u.V == back->vertices && back->vertices->u.V == back->uu.V, "addresses of vertices", 0);
    is(back->vv.A == back->vertices->v.A, "an arc on no list", 0);
    is(back->vv.A->tip == (Vertex *)1 && back->vv.A->len == LONG_MAX, "its tip and length", back->vv.A->len);
    is(back->vv.A->b.A == back->vertices->arcs && back->vertices->arcs->len == -7, "an address of an arc", 0);
    is(mate_of(back->vertices->arcs) == back->vertices[1].arcs, "the edge", 0);
    is_text(back->vertices->w.S, "a string", "a string");
    is_text(back->ww.S, "text", "the graph's string");
    is(back->vertices->x.I == LONG_MIN && back->xx.I == 12, "numbers", back->xx.I);
    gb_recycle(back);
    gb_recycle(g);
    panic_code = 0;
    is_refused(restore_graph("/nowhere/at/all"), early_data_fault, "a file that is not there");
}

/* ------------------------------------------------------------------------------------------------------------------- */

static void operands(void) {
    Graph *g = there(board(3L, 0L, 0L, 0L, 1L, 0L, 0L), "board"), *h;
    Arc *pair = gb_typed_alloc(2, Arc, g->aux_data);
    Graph *(*const of_two[])(Graph *, Graph *, long, long) = {gunion, intersection, product};
    Arc outside, *first = g->vertices->arcs;
    char *name = g->vertices->name;
    size_t k;
    is_refused(complement(NULL, 0L, 0L, 0L), missing_operand, "complement of no graph");
    is_refused(lines(NULL, 0L), missing_operand, "lines of no graph");
    is_refused(induced(NULL, NULL, 0L, 0L, 0L), missing_operand, "induced of no graph");
    for (k = 0; k < 3; k++) {
        is_refused(of_two[k](g, NULL, 0L, 0L), missing_operand, "one graph of two");
        is_refused(of_two[k](NULL, g, 0L, 0L), missing_operand, "the other of two");
    }
    g->vertices->ind = IND_GRAPH;
    g->vertices->subst = NULL;
    is_refused(induced(g, NULL, 0L, 0L, 0L), missing_operand + 1, "no graph in a vertex's place");
    outside = *first;
    outside.tip = g->vertices + g->n;
    g->vertices->arcs = &outside;
    is_refused(gunion(g, g, 0L, 0L), invalid_operand, "an arc that leads out of the graph");
    outside.tip = g->vertices;
    outside.next = &outside;
    is_refused(complement(g, 0L, 0L, 0L), invalid_operand, "a list that does not end");
    outside = *first; /* an arc that is in no area */
    h = there(complement(g, 0L, 0L, 0L), "complement");
    is(h->m == 2 && h->vertices->arcs->tip == h->vertices + 2, "an arc of a program's own", h->m);
    gb_recycle(h);
    pair[0] = *first; /* behind it lies what leads to no vertex */
    pair[1].tip = g->vertices + g->n;
    g->vertices->arcs = pair;
    gb_recycle(there(complement(g, 0L, 0L, 0L), "complement of what has an arc beside others"));
    is_refused(lines(g, 0L), invalid_operand, "lines of what is no edge");
    g->vertices->arcs = first;
    g->vertices->name = "\"";
    is_refused(product(g, g, 0L, 0L), invalid_operand, "a name that no file has");
    g->vertices->name = name;
    first->len = 9;
    strcpy(g->id, "of my own");
    h = there(gunion(g, g, 1L, 0L), "gunion");
    is(h->m == 8 && h->vertices->arcs->len == 9, "a length of a program's own", h->m);
    is_text(h->id, "gunion(of my own,of my own,1,0)", "an id of a program's own");
    gb_recycle(h);
    is_refused(board(2L, -251L, 0L, 0L, 1L, 0L, 0L), bad_specs, "too many dimensions");
    is_refused(board(LONG_MAX, 0L, 0L, 0L, 1L, 0L, 0L), very_bad_specs, "the greatest size");
    is_refused(simplex(ULONG_MAX, -1L, 0L, 0L, 0L, 0L, 0L), very_bad_specs, "the greatest sum");
    is_refused(board(2L, 0L, 0L, 0L, 1L, LONG_MIN, 0L), very_bad_specs, "wrap of 19 digits");
    is_refused(wheel(ULONG_MAX, 1L, 0L), very_bad_specs, "the greatest wheel");
    gb_recycle(g);
}

/* The ends of lines, and what `induced` leaves of its operand. */
static void results(void) {
    Graph *g = there(gb_new_graph(3L), "gb_new_graph"), *h, *inner = there(complete(2L), "complete");
    char name[100];
    long k, directed;
    switch_to_graph(g);
    g->vertices[0].name = "a";
    g->vertices[1].name = "b";
    g->vertices[2].name = "c";
    gb_new_edge(g->vertices + 2, g->vertices, 1L);
    gb_new_edge(g->vertices + 1, g->vertices + 1, 2L);
    gb_new_edge(g->vertices + 1, g->vertices + 2, 3L);
    for (directed = 0; directed < 2; directed++) {
        h = there(lines(g, directed), "lines");
        is(h->n == (directed ? 6 : 3), "how many lines", h->n);
        for (k = 0; k < h->n; k++) {
            Vertex *line = h->vertices + k;
            sprintf(name, "%s%s%s", line->u.V->name, directed ? "->" : "--", line->v.V->name);
            is_text(line->name, name, "the ends of a line");
            is(line->w.A->tip == line->v.V && (directed || line->u.V <= line->v.V), "the arc of a line", k);
        }
        gb_recycle(h);
    }
    g->vertices[0].ind = 2;
    g->vertices[1].ind = IND_GRAPH + 5L;
    g->vertices[1].subst = inner;
    g->vertices[2].ind = -1;
    h = there(induced(g, "mine", 0L, 0L, 0L), "induced");
    is_text(h->id, "induced(gb_new_graph(3),mine,0,0,0)", "an id with a description");
    is(h->n == 5 && g->vertices[0].ind == 2 && g->vertices[1].subst == inner && g->vertices[2].ind == -1, "induced", h->n);
    is_text(h->vertices[1].name, "a", "a name of an induced graph");
    is_text(h->vertices[3].name, "b:0", "a name of a graph in a place");
    gb_recycle(h);
    gb_recycle(inner);
    gb_recycle(g);
}

/* ------------------------------------------------------------------------------------------------------------------- */

int main(int count, char **words) {
    if (count != 2) return 2;
    snprintf(path, sizeof path, "%s/calls.gb", words[1]);
    layouts();
    areas();
    two_graphs();
    names_found();
    ids();
    random_numbers();
    anomalies();
    fields();
    more_vertices();
    operands();
    results();
    printf("%ld looked at, %ld wrong\n", looked, wrong);
    return wrong > 0;
}
