/* Which graphs have two parts, so that every edge goes from one to the other. */
#include "gb_graph.h"
#include "gb_basic.h"

#define side w.I

static int is_fitting(Vertex *v, long wanted) {
    Arc *a;
    if (v->side) return v->side == wanted;
    v->side = wanted;
    for (a = v->arcs; a; a = a->next)
        if (!is_fitting(a->tip, 3 - wanted)) return 0;
    return 1;
}

static void print(Graph *g) {
    Vertex *v;
    int is_bipartite = 1;
    if (!g) return;
    for (v = g->vertices; v < g->vertices + g->n && is_bipartite; v++)
        if (!v->side) is_bipartite = is_fitting(v, 1L);
    printf("%s is%s bipartite\n", g->id, is_bipartite ? "" : " not");
    if (g->util_types[8] == 'I') printf("  and is marked so: %ld vertices are its first part\n", g->n_1);
    gb_recycle(g);
}

int main(void) {
    print(board(8L, 8L, 0L, 0L, 5L, 0L, 0L));
    print(board(8L, 8L, 0L, 0L, 8L, 0L, 0L));
    print(board(8L, 8L, 0L, 0L, 1L, 3L, 0L));
    print(board(7L, 7L, 0L, 0L, 1L, 3L, 0L));
    print(petersen());
    print(bi_complete(3L, 3L, 0L));
    print(wheel(6L, 1L, 0L));
    print(empty(4));
    return 0;
}
