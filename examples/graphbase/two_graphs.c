/* Two graphs that grow side by side: what is new belongs to the current one. */
#include "gb_graph.h"

static Graph *graph_of(char *id, long n) {
    Graph *g = gb_new_graph(n);
    if (g) strcpy(g->id, id);
    switch_to_graph(NULL);
    return g;
}

int main(void) {
    Graph *ring = graph_of("ring", 12L), *star = graph_of("star", 12L), *graphs[2];
    long k;
    if (!ring || !star) return 1;
    graphs[0] = ring;
    graphs[1] = star;
    for (k = 0; k < 12; k++) {
        switch_to_graph(ring);
        gb_new_edge(ring->vertices + k, ring->vertices + (k + 1) % 12, k);
        switch_to_graph(star);
        if (k) gb_new_arc(star->vertices, star->vertices + k, k);
    }
    switch_to_graph(NULL);
    for (k = 0; k < 2; k++) {
        Vertex *v = graphs[k]->vertices;
        Arc *a;
        long degree = 0, length = 0;
        for (a = v->arcs; a; a = a->next) {
            degree++;
            length += a->len;
        }
        printf("%s: %ld arcs, %ld of total length %ld from the first vertex\n", graphs[k]->id, graphs[k]->m, degree, length);
        gb_recycle(graphs[k]);
    }
    return 0;
}
