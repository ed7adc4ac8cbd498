/* A knight's tour: to the square from which the fewest go on. When each square was reached stands in a utility field. */
#include "gb_graph.h"
#include "gb_basic.h"

#define reached w.I

static long ways_on(Vertex *v) {
    long count = 0;
    Arc *a;
    for (a = v->arcs; a; a = a->next) count += !a->tip->reached;
    return count;
}

static Vertex *best(Vertex *v) {
    Vertex *found = NULL;
    Arc *a;
    for (a = v->arcs; a; a = a->next)
        if (!a->tip->reached && (!found || ways_on(a->tip) < ways_on(found))) found = a->tip;
    return found;
}

int main(void) {
    Graph *g = board(8L, 8L, 0L, 0L, 5L, 0L, 0L);
    Vertex *v;
    long k = 0;
    if (!g) return 1;
    for (v = g->vertices; v; v = best(v)) v->reached = ++k;
    for (v = g->vertices; v < g->vertices + g->n; v++) printf("%3ld%s", v->reached, v->y.I == 7 ? "\n" : "");
    printf("%ld squares of %ld\n", k, g->n);
    gb_recycle(g);
    return 0;
}
