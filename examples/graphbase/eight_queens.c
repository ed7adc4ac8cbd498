/* In how many ways n queens stand on a board of n by n so that none moves to another. */
#include "gb_graph.h"
#include "gb_basic.h"

#define hit w.I

static void add(Vertex *v, long by) {
    Arc *a;
    v->hit += by;
    for (a = v->arcs; a; a = a->next) a->tip->hit += by;
}

static long ways(Graph *g, long n, long row) {
    Vertex *v;
    long count = 0;
    if (row == n) return 1;
    for (v = g->vertices + row * n; v < g->vertices + (row + 1) * n; v++)
        if (!v->hit) {
            add(v, 1L);
            count += ways(g, n, row + 1);
            add(v, -1L);
        }
    return count;
}

int main(void) {
    long n;
    for (n = 1; n <= 8; n++) {
        Graph *rook = board(n, n, 0L, 0L, -1L, 0L, 0L), *bishop = board(n, n, 0L, 0L, -2L, 0L, 0L);
        Graph *queen = gunion(rook, bishop, 0L, 0L);
        if (!queen) return 1;
        printf("%ld queens: %ld\n", n, ways(queen, n, 0L));
        gb_recycle(rook);
        gb_recycle(bishop);
        gb_recycle(queen);
    }
    return 0;
}
