/* Prints the file on standard input as `sgb save stdin` does, without a checksum, each record on one line: so it shows all
   that gb.h has read. The number of arc records, which a Graph does not keep, is its word. */
#include "../../examples/files/gb.h"

static Graph *g;
static Arc *arcs;

static void put(char letter, util value) {
    int is_null = !value.V;
    if (letter == 'Z') return;
    putchar(',');
    if (letter == 'I') printf("%ld", value.I);
    if (letter == 'S') printf("\"%s\"", value.S);
    if (letter == 'A') is_null ? printf("0") : printf("A%ld", (long)(value.A - arcs));
    if (letter == 'V') is_null || value.I == 1 ? printf("%ld", value.I) : printf("V%ld", (long)(value.V - g->vertices));
}

int main(int count, char **words) {
    g = gb_read(stdin);
    if (!g || count != 2) return 1;
    arcs = (Arc *)(g->vertices + g->n);
    const char *t = g->util_types;
    printf("* GraphBase graph (util_types %s,%ldV,%sA)\n\"%s\",%ld,%ld", t, g->n, words[1], g->id, g->n, g->m);
    put(t[8], g->uu), put(t[9], g->vv), put(t[10], g->ww), put(t[11], g->xx), put(t[12], g->yy), put(t[13], g->zz);
    printf("\n* Vertices\n");
    for (Vertex *v = g->vertices; v < g->vertices + g->n; v++) {
        printf("\"%s\"", v->name), put('A', (util){.A = v->arcs});
        put(t[0], v->u), put(t[1], v->v), put(t[2], v->w), put(t[3], v->x), put(t[4], v->y), put(t[5], v->z), printf("\n");
    }
    printf("* Arcs\n");
    for (Arc *a = arcs; a < arcs + atol(words[1]); a++) {
        if ((util){.V = a->tip}.I == 1 || !a->tip) printf("%d", a->tip ? 1 : 0);
        else printf("V%ld", (long)(a->tip - g->vertices));
        put('A', (util){.A = a->next}), printf(",%ld", a->len), put(t[6], a->a), put(t[7], a->b), printf("\n");
    }
    return 0;
}
