/* A walk through each edge of a graph once, where all degrees are even: an edge is crossed out by both of its arcs. */
#include "gb_graph.h"
#include "gb_basic.h"

#define crossed a.I

static long length;

static Arc *mate(Arc *a) { return (siz_t)a & edge_trick ? a - 1 : a + 1; }

static void walk(Vertex *v, int is_shown) {
    Arc *a;
    for (a = v->arcs; a; a = a->next)
        if (!a->crossed) {
            a->crossed = mate(a)->crossed = 1;
            walk(a->tip, is_shown);
            length++;
        }
    if (is_shown) printf(" %s", v->name);
}

static void print(Graph *g, int is_shown) {
    if (!g) return;
    length = 0;
    printf("%s:", g->id);
    walk(g->vertices, is_shown);
    printf(" %ld of %ld edges\n", length, g->m / 2);
    gb_recycle(g);
}

int main(void) {
    print(complete(5), 1);
    print(complete(21), 0);
    print(board(9L, 9L, 0L, 0L, 5L, 3L, 0L), 0);
    print(circuit(2), 1);
    return 0;
}
