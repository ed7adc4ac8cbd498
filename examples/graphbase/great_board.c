/* A board of more squares than the published library has room for: it holds 262,135 vertices at most. */
#include "gb_graph.h"
#include "gb_basic.h"

int main(void) {
    Graph *g = board(1000L, 600L, 0L, 0L, 1L, 3L, 0L);
    Vertex *v;
    Arc *a;
    long sum = 0;
    if (!g) {
        printf("Something went wrong (panic code %ld)!\n", panic_code);
        return 1;
    }
    for (v = g->vertices; v < g->vertices + g->n; v++)
        for (a = v->arcs; a; a = a->next) sum += a->tip > v;
    printf("%s: %ld vertices, %ld edges, %ld of them up\n", g->id, g->n, g->m / 2, sum);
    gb_recycle(g);
    return 0;
}
