/* The complement of the lines of complete(5) is Petersen's graph under other names. A line's fields lead to its ends. */
#include "gb_graph.h"
#include "gb_basic.h"

/* In Petersen's graph two vertices have one neighbour in common where they are not neighbours, and none where they are. */
static long common(Vertex *v, Vertex *w) {
    Arc *a, *b;
    long count = 0;
    for (a = v->arcs; a; a = a->next)
        for (b = w->arcs; b; b = b->next) count += a->tip == b->tip;
    return count;
}

static int is_neighbour(Vertex *v, Vertex *w) {
    Arc *a;
    for (a = v->arcs; a; a = a->next)
        if (a->tip == w) return 1;
    return 0;
}

int main(void) {
    Graph *g = complete(5), *h = lines(g, 0L), *p = complement(h, 0L, 0L, 0L);
    Vertex *v, *w;
    int is_petersen = 1;
    if (!p) return 1;
    for (v = h->vertices; v < h->vertices + h->n; v++) printf("%s ends at %s and %s\n", v->name, v->u.V->name, v->v.V->name);
    for (v = p->vertices; v < p->vertices + p->n; v++)
        for (w = p->vertices; w < p->vertices + p->n; w++)
            if (v != w && common(v, w) != !is_neighbour(v, w)) is_petersen = 0;
    printf("%s\n  has %ld vertices and %ld edges, and is%s Petersen's graph\n", p->id, p->n, p->m / 2, is_petersen ? "" : " not");
    gb_recycle(g);
    gb_recycle(h);
    gb_recycle(p);
    return 0;
}
