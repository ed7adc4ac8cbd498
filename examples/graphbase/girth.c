/* The shortest cycle of a graph: from each vertex, the first edge that closes one. */
#include "gb_graph.h"
#include "gb_basic.h"

#define distance w.I
#define queued u.V
#define before v.A

static Arc *mate(Arc *a) { return (siz_t)a & edge_trick ? a - 1 : a + 1; }

static long shortest_through(Graph *g, Vertex *from) {
    Vertex *v, *last = from;
    long least = 0;
    Arc *a;
    for (v = g->vertices; v < g->vertices + g->n; v++) {
        v->distance = 0;
        v->queued = NULL;
    }
    from->distance = 1;
    from->before = NULL;
    for (v = from; v; v = v->queued)
        for (a = v->arcs; a; a = a->next) {
            Vertex *t = a->tip;
            if (!t->distance) {
                t->distance = v->distance + 1;
                t->before = mate(a);
                last = last->queued = t;
            } else if (a != v->before) {
                long length = v->distance + t->distance - 1;
                if (!least || length < least) least = length;
            }
        }
    return least;
}

static void print(Graph *g) {
    long least = 0, length;
    Vertex *v;
    if (!g) return;
    for (v = g->vertices; v < g->vertices + g->n; v++) {
        length = shortest_through(g, v);
        if (length && (!least || length < least)) least = length;
    }
    printf("%s: ", g->id);
    if (least) printf("%ld\n", least);
    else printf("no cycle\n");
    gb_recycle(g);
}

int main(void) {
    Graph *g = petersen(), *h = complete(4);
    print(lines(h, 0L));
    print(product(g, h, direct, 0L));
    gb_recycle(h);
    print(g);
    print(board(8L, 8L, 0L, 0L, 5L, 0L, 0L));
    print(board(4L, 0L, 0L, 0L, 1L, 0L, 0L));
    print(circuit(9));
    print(circuit(2)); /* two edges between two vertices */
    print(circuit(1)); /* a loop */
    print(board(3L, -4L, 0L, 0L, 1L, 15L, 0L));
    return 0;
}
