/* How far a knight's squares are from a corner, by a queue in utility fields. */
#include "gb_graph.h"
#include "gb_basic.h"

#define distance w.I
#define queued u.V

static void search(Vertex *from) {
    Vertex *v, *last = from;
    Arc *a;
    from->distance = 1;
    for (v = from; v; v = v->queued)
        for (a = v->arcs; a; a = a->next)
            if (!a->tip->distance) {
                a->tip->distance = v->distance + 1;
                last = last->queued = a->tip;
            }
}

static void print_counts(Graph *g) {
    long counts[100] = {0}, k;
    Vertex *v;
    for (v = g->vertices; v < g->vertices + g->n; v++)
        if (v->distance < 100) counts[v->distance]++;
    printf("%s:", g->id);
    if (counts[0]) printf(" (%ld not reached)", counts[0]);
    for (k = 1; k < 100 && counts[k]; k++) printf(" %ld", counts[k]);
    printf("\n");
}

int main(void) {
    Graph *graphs[4];
    int k;
    graphs[0] = board(8L, 8L, 0L, 0L, 5L, 0L, 0L);
    graphs[1] = petersen();
    graphs[2] = board(2L, -7L, 0L, 0L, 1L, 0L, 0L);
    graphs[3] = board(3L, 3L, 0L, 0L, 5L, 0L, 0L);
    for (k = 0; k < 4; k++) {
        if (!graphs[k]) return 1;
        search(graphs[k]->vertices);
        print_counts(graphs[k]);
        gb_recycle(graphs[k]);
    }
    return 0;
}
