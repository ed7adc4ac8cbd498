/* How many ways lead from the first vertex to the last one of a graph whose arcs all go up. */
#include "gb_graph.h"
#include "gb_basic.h"

#define ways w.I

static void print(Graph *g) {
    Vertex *v;
    Arc *a;
    if (!g) return;
    g->vertices->ways = 1;
    for (v = g->vertices; v < g->vertices + g->n; v++)
        for (a = v->arcs; a; a = a->next) a->tip->ways += v->ways;
    printf("%s: %ld\n", g->id, g->vertices[g->n - 1].ways);
    gb_recycle(g);
}

int main(void) {
    print(board(4L, 4L, 0L, 0L, 1L, 0L, 1L));
    print(board(9L, 9L, 0L, 0L, 1L, 0L, 1L));
    print(board(2L, -10L, 0L, 0L, 1L, 0L, 1L));
    print(transitive(20));
    print(board(8L, 8L, 0L, 0L, -1L, 0L, 1L));
    return 0;
}
