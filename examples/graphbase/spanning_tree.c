/* A least spanning tree of a board whose edges have random lengths. The two arcs of an edge lie side by side, so that a length
 * that is given to one is given to the other. */
#include "gb_graph.h"
#include "gb_basic.h"
#include "gb_flip.h"

#define in_tree w.I

static void set_lengths(Graph *g) {
    Vertex *v;
    Arc *a;
    gb_init_rand(1993L);
    for (v = g->vertices; v < g->vertices + g->n; v++)
        for (a = v->arcs; a; a = a->next)
            if (v < a->tip) a->len = (a + 1)->len = 1 + gb_unif_rand(100L);
}

/* The shortest arc out of the tree. */
static Arc *shortest(Graph *g) {
    Arc *found = NULL, *a;
    Vertex *v;
    for (v = g->vertices; v < g->vertices + g->n; v++)
        for (a = v->in_tree ? v->arcs : NULL; a; a = a->next)
            if (!a->tip->in_tree && (!found || a->len < found->len)) found = a;
    return found;
}

int main(void) {
    Graph *g = board(10L, 10L, 0L, 0L, 1L, 0L, 0L);
    Arc *a;
    long edges = 0, total = 0;
    if (!g) return 1;
    set_lengths(g);
    g->vertices->in_tree = 1;
    for (a = shortest(g); a; a = shortest(g)) {
        a->tip->in_tree = 1;
        edges++;
        total += a->len;
    }
    printf("%ld edges of total length %ld join the %ld squares\n", edges, total, g->n);
    gb_recycle(g);
    return 0;
}
