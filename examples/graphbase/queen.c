/* The moves of a queen on a board of 3 by 4: those of a rook and those of a bishop. */
#include "gb_graph.h"
#include "gb_basic.h"

int main(void) {
    Graph *rook = board(3L, 4L, 0L, 0L, -1L, 0L, 0L);
    Graph *bishop = board(3L, 4L, 0L, 0L, -2L, 0L, 0L);
    Graph *queen = gunion(rook, bishop, 0L, 0L);
    Vertex *v;
    Arc *a;
    if (!queen) {
        printf("Something went wrong (panic code %ld)!\n", panic_code);
        return 1;
    }
    printf("Queen Moves on a 3x4 Board\n\n");
    printf("  The graph whose official name is\n%s\n", queen->id);
    printf("  has %ld vertices and %ld arcs:\n\n", queen->n, queen->m);
    for (v = queen->vertices; v < queen->vertices + queen->n; v++) {
        printf("%s\n", v->name);
        for (a = v->arcs; a; a = a->next) printf("  -> %s, length %ld\n", a->tip->name, a->len);
    }
    gb_recycle(rook);
    gb_recycle(bishop);
    gb_recycle(queen);
    return 0;
}
