/* Leapers that move by r squares one way and s the other, r < s: where r + s is odd and r and s have no factor in common, one
 * reaches all squares of a board of r + s by 2s, and of no smaller one. */
#include "gb_graph.h"
#include "gb_basic.h"

#define link u.V

static Vertex *root(Vertex *v) {
    while (v->link != v) v = v->link = v->link->link;
    return v;
}

static long pieces_of(Graph *g) {
    Vertex *v;
    Arc *a;
    long pieces = g->n;
    for (v = g->vertices; v < g->vertices + g->n; v++) v->link = v;
    for (v = g->vertices; v < g->vertices + g->n; v++)
        for (a = v->arcs; a; a = a->next)
            if (root(v) != root(a->tip)) {
                root(v)->link = root(a->tip);
                pieces--;
            }
    return pieces;
}

static void print(long r, long s, long rows, long columns) {
    Graph *g = board(rows, columns, 0L, 0L, r * r + s * s, 0L, 0L);
    if (!g) return;
    printf("{%ld,%ld} on %2ld by %2ld: %ld\n", r, s, rows, columns, pieces_of(g));
    gb_recycle(g);
}

int main(void) {
    /* in this way alone is r r + s s a sum of two squares */
    static const long leapers[][2] = {{1, 2}, {2, 3}, {1, 4}, {2, 5}, {1, 6}, {4, 5}, {2, 7}};
    size_t k;
    for (k = 0; k < sizeof leapers / sizeof *leapers; k++) {
        long r = leapers[k][0], s = leapers[k][1];
        print(r, s, r + s, 2 * s);
        print(r, s, r + s, 2 * s - 1);
        print(r, s, r + s - 1, 2 * s);
    }
    return 0;
}
