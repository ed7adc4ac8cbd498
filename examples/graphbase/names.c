/* Vertices by their names, in a graph that was made and in one of a program's own. */
#include "gb_graph.h"
#include "gb_basic.h"

static void print(Graph *g, char *name) {
    Vertex *v = hash_lookup(name, g);
    if (v) printf("%s is vertex %ld\n", name, (long)(v - g->vertices));
    else printf("%s is no vertex\n", name);
}

int main(void) {
    static char *cities[] = {"Oslo", "Roma", "Wien"};
    Graph *g = simplex(4L, 4L, 4L, 4L, 0L, 0L, 0L), *own;
    int k;
    if (!g) return 1;
    hash_setup(g);
    print(g, "0.0.4");
    print(g, "2.1.1");
    print(g, "4.0.0");
    print(g, "5.0.0");
    gb_recycle(g);
    own = gb_new_graph(3L);
    if (!own) return 1;
    for (k = 0; k < 3; k++) {
        own->vertices[k].name = gb_save_string(cities[k]);
        hash_in(own->vertices + k);
    }
    print(own, "Wien");
    print(own, "Bern");
    gb_recycle(own);
    return 0;
}
