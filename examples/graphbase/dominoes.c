/* Dominoes on a board of which two corners are gone: as many edges as no two of which meet. */
#include "gb_graph.h"
#include "gb_basic.h"

#define partner u.V
#define tried w.I

static long round_number;

/* The squares are black and white: a way from a white one, by edges in and out of the pairs that stand, to a free one. */
static int is_paired(Vertex *v) {
    Arc *a;
    for (a = v->arcs; a; a = a->next) {
        Vertex *t = a->tip;
        if (t->tried == round_number) continue;
        t->tried = round_number;
        if (!t->partner || is_paired(t->partner)) {
            t->partner = v;
            v->partner = t;
            return 1;
        }
    }
    return 0;
}

static void print(Graph *g, int (*is_white)(Vertex *)) {
    Vertex *v;
    long pairs = 0;
    if (!g) return;
    for (v = g->vertices; v < g->vertices + g->n; v++)
        if (is_white(v)) {
            round_number++;
            pairs += is_paired(v);
        }
    printf("%s: %ld squares, %ld dominoes\n", g->id, g->n, pairs);
    gb_recycle(g);
}

/* The names of squares are their coordinates. */
static int is_white(Vertex *v) {
    int row, column;
    return sscanf(v->name, "%d.%d", &row, &column) == 2 && (row + column) % 2 == 0;
}

static Graph *board_without(long k1, long k2) {
    Graph *g = board(8L, 8L, 0L, 0L, 1L, 0L, 0L), *left;
    Vertex *v;
    if (!g) return NULL;
    for (v = g->vertices; v < g->vertices + g->n; v++) v->ind = 1;
    g->vertices[k1].ind = g->vertices[k2].ind = 0;
    left = induced(g, "without", 0L, 0L, 0L);
    gb_recycle(g);
    return left;
}

int main(void) {
    print(board(8L, 8L, 0L, 0L, 1L, 0L, 0L), is_white);
    print(board_without(0L, 63L), is_white);
    print(board_without(0L, 7L), is_white);
    print(board(3L, 3L, 0L, 0L, 1L, 0L, 0L), is_white);
    return 0;
}
