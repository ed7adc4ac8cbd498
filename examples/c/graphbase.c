/* An old program of the Stanford GraphBase on the library for C: structures as GB_GRAPH's, filled from the arrays.
 *
 *     cc -O2 -Iinclude examples/c/graphbase.c libsgb.a -o graphbase
 *     ./graphbase "petersen()"              the listing, as `sgb list "petersen()"` writes it
 *     ./graphbase "lines(stdin,0)" < file.gb
 *
 * The functions below `list` walk `v->arcs`, `a->next` and `a->tip`, as the demonstrations of the book do. Utility fields
 * of vertices are filled where they hold integers; all others are null. */
#include <stdio.h>
#include <stdlib.h>
#include <string.h>

#include "sgb.h"

typedef union {
    struct vertex *V;
    struct arc *A;
    struct graph *G;
    char *S;
    long I;
} util;

typedef struct vertex {
    struct arc *arcs;
    char *name;
    util u, v, w, x, y, z;
} Vertex;

typedef struct arc {
    Vertex *tip;
    struct arc *next;
    long len;
    util a, b;
} Arc;

typedef struct graph {
    Vertex *vertices;
    long n, m;
    char id[161];
    Arc *arcs; /* all of them; GB_GRAPH keeps them in blocks of its own */
    char *names;
} Graph;

/* The number of why there is no graph; 0 where there is one. */
static unsigned long panic_code;

static void *room(size_t count, size_t size) {
    void *at = calloc(count + 1, size);
    if (!at) panic_code = SGB_NO_ROOM;
    return at;
}

static void recycle(Graph *g) {
    if (!g) return;
    free(g->vertices);
    free(g->arcs);
    free(g->names);
    free(g);
}

static util *field_of(Vertex *v, uint32_t field) {
    util *fields[] = {&v->u, &v->v, &v->w, &v->x, &v->y, &v->z};
    return fields[field];
}

/* The graph of an expression, or null, where panic_code says why. */
static Graph *graph_of(const char *text, const char *input, size_t input_len) {
    sgb_graph held = SGB_NO_GRAPH;
    sgb_graph_sizes sizes;
    panic_code = sgb_open(text, strlen(text), input, input_len, &held);
    if (panic_code) return NULL;
    uint64_t arcs = 0, listed = 0, bytes = 0;
    sgb_sizes(&held, &sizes);
    uint32_t n = sizes.vertices;
    panic_code = sgb_arcs(&held, &arcs);
    if (!panic_code) panic_code = sgb_rows_size(&held, 0, n, &listed);
    if (!panic_code) panic_code = sgb_names_size(&held, 0, n, &bytes);
    Graph *g = room(1, sizeof *g);
    uint64_t *starts = room(n + 1, sizeof *starts);
    uint64_t *begins = room(n + 1, sizeof *begins);
    uint32_t *tips = room(listed, sizeof *tips);
    int64_t *numbers = room(listed > n ? listed : n, sizeof *numbers);
    char *names = room(bytes, 1);
    if (!panic_code) {
        g->vertices = room(n, sizeof *g->vertices);
        g->arcs = room(listed, sizeof *g->arcs);
        g->names = room(bytes + n, 1);
        g->n = (long)n;
        g->m = (long)arcs;
    }
    if (!panic_code) panic_code = sgb_id(&held, g->id, sizes.id);
    if (!panic_code) panic_code = sgb_names(&held, 0, n, begins, n + 1, names, bytes);
    if (!panic_code) panic_code = sgb_rows(&held, 0, n, starts, n + 1, tips, listed, numbers, listed);
    for (size_t v = 0; !panic_code && v < n; v++) {
        Vertex *here = &g->vertices[v];
        here->name = g->names + begins[v] + v; /* each name has a zero byte after it */
        memcpy(here->name, names + begins[v], begins[v + 1] - begins[v]);
        here->arcs = starts[v] < starts[v + 1] ? &g->arcs[starts[v]] : NULL;
        for (uint64_t k = starts[v]; k < starts[v + 1]; k++) {
            g->arcs[k].tip = &g->vertices[tips[k]];
            g->arcs[k].len = (long)numbers[k];
            g->arcs[k].next = k + 1 < starts[v + 1] ? &g->arcs[k + 1] : NULL;
        }
    }
    for (uint32_t field = 0; !panic_code && field < 6; field++) {
        uint64_t answer = sgb_ints(&held, field, 0, n, numbers, n);
        if (answer == SGB_NO_INTEGERS) continue;
        panic_code = answer;
        for (size_t v = 0; !answer && v < n; v++) field_of(&g->vertices[v], field)->I = (long)numbers[v];
    }
    sgb_close(&held);
    free(starts);
    free(begins);
    free(tips);
    free(numbers);
    free(names);
    if (panic_code) {
        recycle(g);
        return NULL;
    }
    return g;
}

static void list(Graph *g) {
    printf("  The graph whose official name is\n%s\n  has %ld vertices and %ld arcs:\n\n", g->id, g->n, g->m);
    for (Vertex *v = g->vertices; v < g->vertices + g->n; v++) {
        printf("%s\n", v->name);
        for (Arc *a = v->arcs; a; a = a->next) printf("  -> %s, length %ld\n", a->tip->name, a->len);
    }
}

/* All of standard input, of whatever size, or null: where it fails, or there is no memory. */
static char *whole_input(size_t *len) {
    size_t size = 1 << 16, got = 0;
    char *input = malloc(size);
    *len = 0;
    while (input && (got = fread(input + *len, 1, size - *len, stdin)) > 0) {
        *len += got;
        if (*len < size) continue;
        char *more = realloc(input, size *= 2);
        if (!more) free(input);
        input = more;
    }
    if (input && ferror(stdin)) {
        free(input);
        input = NULL;
    }
    return input;
}

int main(int count, char **words) {
    char *input = NULL;
    size_t input_len = 0;
    if (count != 2) {
        fprintf(stderr, "usage: graphbase EXPR\n");
        return 2;
    }
    if (strstr(words[1], "stdin") && !(input = whole_input(&input_len))) {
        fprintf(stderr, "graphbase: the input could not be read\n");
        return 2;
    }
    Graph *g = graph_of(words[1], input ? input : "", input_len);
    free(input);
    if (!g) {
        fprintf(stderr, "Something went wrong (panic code %lu)!\n", panic_code);
        return 1;
    }
    list(g);
    recycle(g);
    return 0;
}
