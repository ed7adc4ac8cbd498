/* Prints the listing of the .gb file on standard input, as `sgb list stdin` does; a refusal is its code on standard error.

     cc -o gb_list examples/files/gb_list.c && sgb save "petersen()" | ./gb_list */
#include "gb.h"

int main(void) {
    Graph *g = gb_read(stdin);
    if (!g) return fprintf(stderr, "gb_list: code %ld\n", gb_code), 1;
    printf("  The graph whose official name is\n%s\n  has %ld vertices and %ld arcs:\n\n", g->id, g->n, g->m);
    for (Vertex *v = g->vertices; v < g->vertices + g->n; v++) {
        printf("%s\n", v->name);
        for (Arc *a = v->arcs; a; a = a->next) printf("  -> %s, length %ld\n", a->tip->name, a->len);
    }
    free(g);
    return fflush(stdout) || ferror(stdout) ? 3 : 0;
}
