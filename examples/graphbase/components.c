/* How many pieces a graph falls into: vertices of one piece are joined, each with a link to a vertex of its own piece. */
#include "gb_graph.h"
#include "gb_basic.h"

#define link u.V

static Vertex *root(Vertex *v) {
    while (v->link != v) v = v->link = v->link->link;
    return v;
}

static void count(Graph *g) {
    Vertex *v;
    Arc *a;
    long pieces;
    if (!g) return;
    pieces = g->n;
    for (v = g->vertices; v < g->vertices + g->n; v++) v->link = v;
    for (v = g->vertices; v < g->vertices + g->n; v++)
        for (a = v->arcs; a; a = a->next)
            if (root(v) != root(a->tip)) {
                root(v)->link = root(a->tip);
                pieces--;
            }
    printf("%s: %ld\n", g->id, pieces);
    gb_recycle(g);
}

int main(void) {
    count(board(8L, 8L, 0L, 0L, 1L, 0L, 0L));
    count(board(8L, 8L, 0L, 0L, 2L, 0L, 0L));
    count(board(8L, 8L, 0L, 0L, 5L, 0L, 0L));
    count(board(3L, 3L, 0L, 0L, 5L, 0L, 0L));
    count(board(9L, 9L, 0L, 0L, 9L, 3L, 0L));
    count(empty(5));
    count(petersen());
    count(disjoint_subsets(4, 2));
    return 0;
}
