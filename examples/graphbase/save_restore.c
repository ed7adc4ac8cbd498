/* A graph with fields of a program's own goes into a file, and comes back with them. */
#include "gb_graph.h"
#include "gb_basic.h"
#include "gb_save.h"

#define degree u.I
#define opposite v.V

int main(void) {
    Graph *g = board(2L, 3L, 0L, 0L, 1L, 0L, 0L), *back;
    Vertex *v;
    Arc *a;
    long anomalies;
    if (!g) return 1;
    for (v = g->vertices; v < g->vertices + g->n; v++) {
        for (a = v->arcs; a; a = a->next) v->degree++;
        v->opposite = g->vertices + (g->n - 1 - (v - g->vertices));
    }
    g->util_types[0] = 'I';
    g->util_types[1] = 'V';
    anomalies = save_graph(g, "squares.gb");
    if (anomalies) {
        printf("the file does not tell all: %ld\n", anomalies);
        return 1;
    }
    gb_recycle(g);
    back = restore_graph("squares.gb");
    remove("squares.gb");
    if (!back) {
        printf("there is no graph (panic code %ld)\n", panic_code);
        return 1;
    }
    printf("%s, %s\n", back->id, back->util_types);
    for (v = back->vertices; v < back->vertices + back->n; v++)
        printf("%s has %ld neighbours, and is opposite to %s\n", v->name, v->degree, v->opposite->name);
    gb_recycle(back);
    return 0;
}
