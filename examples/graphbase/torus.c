/* A torus twice: as the product of two circuits, and as a board whose sides wrap around. They have the same vertices in the same
 * order, so that each edge of one is looked for in the other. */
#include "gb_graph.h"
#include "gb_basic.h"

static int has_arc(Graph *g, long from, long to) {
    Arc *a;
    for (a = g->vertices[from].arcs; a; a = a->next)
        if (a->tip == g->vertices + to) return 1;
    return 0;
}

static int is_within(Graph *g, Graph *h) {
    Vertex *v;
    Arc *a;
    for (v = g->vertices; v < g->vertices + g->n; v++)
        for (a = v->arcs; a; a = a->next)
            if (!has_arc(h, (long)(v - g->vertices), (long)(a->tip - g->vertices))) return 0;
    return 1;
}

int main(void) {
    Graph *one = circuit(5), *other = circuit(7), *g = product(one, other, cartesian, 0L);
    Graph *h = board(5L, 7L, 0L, 0L, 1L, 3L, 0L), *both;
    if (!g || !h) return 1;
    printf("%s: %ld vertices, %ld arcs\n%s: %ld vertices, %ld arcs\n", g->id, g->n, g->m, h->id, h->n, h->m);
    printf("%s\n", g->n == h->n && is_within(g, h) && is_within(h, g) ? "the same" : "not the same");
    both = intersection(g, h, 0L, 0L);
    printf("in common: %ld arcs\n", both ? both->m : -1);
    gb_recycle(one);
    gb_recycle(other);
    gb_recycle(g);
    gb_recycle(h);
    gb_recycle(both);
    return 0;
}
