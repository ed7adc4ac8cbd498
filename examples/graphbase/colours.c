/* The least number of colours for a graph, by trial. */
#include "gb_graph.h"
#include "gb_basic.h"

#define colour w.I

static int fits(Vertex *v, long c) {
    Arc *a;
    for (a = v->arcs; a; a = a->next)
        if (a->tip->colour == c) return 0;
    return 1;
}

static int can_colour(Graph *g, Vertex *v, long used, long most) {
    long c;
    if (v == g->vertices + g->n) return 1;
    for (c = 1; c <= used + 1 && c <= most; c++)
        if (fits(v, c)) {
            v->colour = c;
            if (can_colour(g, v + 1, c > used ? c : used, most)) return 1;
            v->colour = 0;
        }
    return 0;
}

static void print(Graph *g) {
    long most = 0;
    if (!g) return;
    while (!can_colour(g, g->vertices, 0L, most)) most++;
    printf("%s: %ld\n", g->id, most);
    gb_recycle(g);
}

static Graph *queen_graph(long n) {
    Graph *rook = board(n, n, 0L, 0L, -1L, 0L, 0L), *bishop = board(n, n, 0L, 0L, -2L, 0L, 0L);
    Graph *queen = gunion(rook, bishop, 0L, 0L);
    gb_recycle(rook);
    gb_recycle(bishop);
    return queen;
}

int main(void) {
    print(petersen());
    print(complete(6));
    print(circuit(5));
    print(empty(3));
    print(wheel(5L, 1L, 0L));
    print(board(8L, 8L, 0L, 0L, 5L, 0L, 0L));
    print(board(4L, 4L, 0L, 0L, -1L, 0L, 0L));
    print(queen_graph(4L));
    print(queen_graph(5L));
    print(queen_graph(6L));
    return 0;
}
