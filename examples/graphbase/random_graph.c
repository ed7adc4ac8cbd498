/* Edges between random vertices, until all hang together. */
#include "gb_graph.h"
#include "gb_flip.h"

#define link u.V

static Vertex *root(Vertex *v) {
    while (v->link != v) v = v->link;
    return v;
}

int main(void) {
    Graph *g = gb_new_graph(100L);
    Vertex *v;
    char name[30];
    long pieces;
    if (!g) return 1;
    sprintf(g->id, "until_connected(%ld)", g->n);
    for (v = g->vertices; v < g->vertices + g->n; v++) {
        sprintf(name, "v%ld", (long)(v - g->vertices));
        v->name = gb_save_string(name);
        v->link = v;
    }
    gb_init_rand(42L);
    for (pieces = g->n; pieces > 1;) {
        Vertex *one = g->vertices + gb_unif_rand(g->n), *other = g->vertices + gb_unif_rand(g->n);
        gb_new_edge(one, other, 1L);
        if (root(one) != root(other)) {
            root(one)->link = root(other);
            pieces--;
        }
        if (gb_trouble_code) return 1;
    }
    printf("%s: %ld edges\n", g->id, g->m / 2);
    gb_recycle(g);
    return 0;
}
