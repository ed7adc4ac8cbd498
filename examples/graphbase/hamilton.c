/* How many ways there are around a graph, through each vertex once. */
#include "gb_graph.h"
#include "gb_basic.h"

#define taken w.I

static long ways(Vertex *v, Vertex *home, long left) {
    long count = 0;
    Arc *a;
    if (left == 0) {
        for (a = v->arcs; a; a = a->next) count += a->tip == home;
        return count;
    }
    for (a = v->arcs; a; a = a->next)
        if (!a->tip->taken) {
            a->tip->taken = 1;
            count += ways(a->tip, home, left - 1);
            a->tip->taken = 0;
        }
    return count;
}

static void print(Graph *g) {
    if (!g) return;
    g->vertices->taken = 1;
    /* each is met forward and back */
    printf("%s: %ld\n", g->id, ways(g->vertices, g->vertices, g->n - 1) / 2);
    gb_recycle(g);
}

int main(void) {
    print(complete(7));
    print(circuit(9));
    print(petersen());
    print(board(2L, -3L, 0L, 0L, 1L, 0L, 0L));
    print(board(2L, -4L, 0L, 0L, 1L, 0L, 0L));
    print(board(4L, 4L, 0L, 0L, 1L, 0L, 0L));
    print(board(6L, 6L, 0L, 0L, 1L, 0L, 0L));
    print(board(3L, 10L, 0L, 0L, 5L, 0L, 0L));
    print(bi_complete(4L, 4L, 0L));
    return 0;
}
