/* Graphs in the place of vertices: a wheel whose hub is a triangle; a path whose middle is merged with one end. */
#include "gb_graph.h"
#include "gb_basic.h"

static void print(Graph *g) {
    Vertex *v;
    Arc *a;
    if (!g) {
        printf("no graph (panic code %ld)\n", panic_code);
        return;
    }
    printf("%s\n", g->id);
    for (v = g->vertices; v < g->vertices + g->n; v++) {
        printf("  %s:", v->name);
        for (a = v->arcs; a; a = a->next) printf(" %s", a->tip->name);
        printf("\n");
    }
}

int main(void) {
    Graph *g = complete(2), *hub = complete(3), *rim = circuit(4), *path = board(3L, 0L, 0L, 0L, 1L, 0L, 0L);
    Graph *wheel_around, *merged, *none;
    if (!g || !hub || !rim || !path) return 1;
    g->vertices[0].ind = g->vertices[1].ind = IND_GRAPH;
    g->vertices[0].subst = hub;
    g->vertices[1].subst = rim;
    print(wheel_around = induced(g, NULL, 0L, 0L, 0L));
    path->vertices[0].ind = 1;
    path->vertices[1].ind = path->vertices[2].ind = -1;
    print(merged = induced(path, "merged", 1L, 0L, 0L));
    path->vertices[0].ind = IND_GRAPH; /* without a graph there */
    path->vertices[0].subst = NULL;
    print(none = induced(path, NULL, 0L, 0L, 0L));
    gb_recycle(g);
    gb_recycle(hub);
    gb_recycle(rim);
    gb_recycle(path);
    gb_recycle(wheel_around);
    gb_recycle(merged);
    gb_recycle(none);
    return 0;
}
