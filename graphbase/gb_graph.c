/* GB_GRAPH: areas of memory, graphs, arcs, strings, and vertices by their names. */
#include "gb_graph.h"

#include <limits.h>
#include <stdint.h>
#include <stdlib.h>

#define ARCS_IN_A_BLOCK 102
#define BYTES_IN_A_BLOCK 1016

long verbose;
long panic_code;
long gb_trouble_code;
long extra_n = 4;
char null_string[1];
/* the lowest bit of a record's size: the two records of an edge begin in a block that no smaller power divides */
siz_t edge_trick = sizeof(Arc) & (~sizeof(Arc) + 1);

/* What is current where no graph is, and the records of an edge for which there is no memory. */
static Graph no_graph;
static Arc no_arcs[2];

static Graph *current = &no_graph;
static Arc *next_arc, *end_of_arcs;
static char *next_byte, *end_of_bytes;

/* Areas */

char *gb_alloc(long n, Area s) {
    size_t unit = sizeof(char *), bytes;
    struct area_pointers *own;
    char *block;
    if (n <= 0) {
        gb_trouble_code |= 2;
        return NULL;
    }
    bytes = ((size_t)n + unit - 1) / unit * unit;
    block = calloc(bytes + sizeof *own, 1);
    if (!block) {
        gb_trouble_code |= 1;
        return NULL;
    }
    own = (struct area_pointers *)(void *)(block + bytes);
    own->first = block;
    own->next = *s;
    *s = own;
    return block;
}

void gb_free(Area s) {
    while (*s) {
        struct area_pointers *next = (*s)->next;
        free((*s)->first);
        *s = next;
    }
}

/* Graphs */

static void begin_anew(Graph *g) {
    current = g;
    next_arc = end_of_arcs = NULL;
    next_byte = end_of_bytes = NULL;
}

static Vertex *new_vertices(long n, Area s) {
    Vertex *vertices, *v;
    if (n < 0 || n > LONG_MAX / (long)sizeof(Vertex) - extra_n) {
        gb_trouble_code |= 2;
        return NULL;
    }
    vertices = gb_typed_alloc((size_t)(n + extra_n), Vertex, s);
    for (v = vertices; vertices && v < vertices + n + extra_n; v++) v->name = null_string;
    return vertices;
}

Graph *gb_new_graph(long n) {
    Graph *g = calloc(1, sizeof *g);
    Vertex *vertices = g ? new_vertices(n, g->data) : NULL;
    gb_trouble_code = 0;
    if (!vertices) {
        free(g);
        begin_anew(&no_graph);
        return NULL;
    }
    g->vertices = vertices;
    g->n = n;
    sprintf(g->id, "gb_new_graph(%ld)", n);
    strcpy(g->util_types, "ZZZZZZZZZZZZZZ");
    begin_anew(g);
    return g;
}

void switch_to_graph(Graph *g) {
    current->ww.A = next_arc;
    current->xx.A = end_of_arcs;
    current->yy.S = next_byte;
    current->zz.S = end_of_bytes;
    current = g ? g : &no_graph;
    next_arc = current->ww.A;
    end_of_arcs = current->xx.A;
    next_byte = current->yy.S;
    end_of_bytes = current->zz.S;
    current->ww.A = NULL;
    current->xx.A = NULL;
    current->yy.S = NULL;
    current->zz.S = NULL;
}

void gb_recycle(Graph *g) {
    if (!g) return;
    if (g == current) begin_anew(&no_graph);
    gb_free(g->data);
    gb_free(g->aux_data);
    free(g);
}

/* Ids */

/* At most `most` bytes of an id, which a program may have filled to its end. */
static int bytes_of(const char *id, long most) {
    size_t length = 0;
    while ((long)length < most && length < ID_FIELD_SIZE && id[length]) length++;
    return (int)length;
}

void make_compound_id(Graph *g, char *s1, Graph *gg, char *s2) {
    long room = ID_FIELD_SIZE - (long)strlen(s1) - (long)strlen(s2);
    char id[ID_FIELD_SIZE];
    int length = bytes_of(gg->id, ID_FIELD_SIZE);
    memcpy(id, gg->id, sizeof id);
    if (length < room) snprintf(g->id, ID_FIELD_SIZE, "%s%.*s%s", s1, length, id, s2);
    else snprintf(g->id, ID_FIELD_SIZE, "%s%.*s...)%s", s1, bytes_of(id, room - 5), id, s2);
}

void make_double_compound_id(Graph *g, char *s1, Graph *gg, char *s2, Graph *ggg, char *s3) {
    long room = ID_FIELD_SIZE - (long)strlen(s1) - (long)strlen(s2) - (long)strlen(s3);
    char one[ID_FIELD_SIZE], other[ID_FIELD_SIZE];
    int first = bytes_of(gg->id, ID_FIELD_SIZE), second = bytes_of(ggg->id, ID_FIELD_SIZE);
    memcpy(one, gg->id, sizeof one);
    memcpy(other, ggg->id, sizeof other);
    if (first + second < room) {
        snprintf(g->id, ID_FIELD_SIZE, "%s%.*s%s%.*s%s", s1, first, one, s2, second, other, s3);
        return;
    }
    snprintf(g->id, ID_FIELD_SIZE, "%s%.*s...)%s%.*s...)%s", s1, bytes_of(one, room / 2 - 5), one, s2,
             bytes_of(other, (room - 9) / 2), other, s3);
}

/* Arcs and strings */

Arc *gb_virgin_arc(void) {
    if (next_arc == end_of_arcs) {
        Arc *block = gb_typed_alloc(ARCS_IN_A_BLOCK, Arc, current->data);
        if (!block) return no_arcs;
        next_arc = block;
        end_of_arcs = block + ARCS_IN_A_BLOCK;
    }
    return next_arc++;
}

void gb_new_arc(Vertex *u, Vertex *v, long len) {
    Arc *a = gb_virgin_arc();
    a->tip = v;
    a->next = u->arcs;
    a->len = len;
    u->arcs = a;
    current->m++;
}

/* Two records side by side. After an odd number of single arcs a block's last record stays free. */
static Arc *two_virgin_arcs(void) {
    Arc *a;
    if (next_arc && end_of_arcs - next_arc == 1) next_arc = end_of_arcs;
    a = gb_virgin_arc();
    if (a != no_arcs) next_arc++;
    return a;
}

void gb_new_edge(Vertex *u, Vertex *v, long len) {
    Arc *pair = two_virgin_arcs();
    Arc *out = u < v ? pair : pair + 1, *back = u < v ? pair + 1 : pair;
    out->tip = v;
    out->next = u->arcs;
    u->arcs = out;
    /* of a loop the second record is put on the list first */
    back->tip = u;
    back->next = v->arcs;
    v->arcs = back;
    out->len = back->len = len;
    current->m += 2;
}

char *gb_save_string(char *s) {
    size_t length = strlen(s) + 1;
    char *copy;
    if (!next_byte || length > (size_t)(end_of_bytes - next_byte)) {
        size_t size = length > BYTES_IN_A_BLOCK ? length : BYTES_IN_A_BLOCK;
        char *block = size > LONG_MAX ? NULL : gb_alloc((long)size, current->data);
        if (!block) return null_string;
        next_byte = block;
        end_of_bytes = block + size;
    }
    copy = next_byte;
    next_byte += length;
    return memcpy(copy, s, length);
}

/* Vertices by their names: each vertex heads the chain of those whose names have its place as their sum. The sum is
 * GraphBase's, so that a file with these fields in it is good for both. */

#define FACTOR 314159
#define PRIME 516595003

static Vertex *head_of(const char *name) {
    const unsigned char *byte;
    long sum = 0;
    for (byte = (const unsigned char *)name; *byte; byte++) {
        sum += (sum ^ (sum >> 1)) + (long)FACTOR * *byte;
        sum %= PRIME;
    }
    return current->vertices + sum % current->n;
}

void hash_in(Vertex *v) {
    Vertex *head = head_of(v->name);
    v->hash_link = head->hash_head;
    head->hash_head = v;
}

Vertex *hash_out(char *s) {
    Vertex *v = head_of(s)->hash_head;
    while (v && strcmp(v->name, s) != 0) v = v->hash_link;
    return v;
}

void hash_setup(Graph *g) {
    Graph *kept = current;
    Vertex *v;
    if (!g || g->n <= 0) return;
    current = g;
    for (v = g->vertices; v < g->vertices + g->n; v++) v->hash_head = NULL;
    for (v = g->vertices; v < g->vertices + g->n; v++) hash_in(v);
    g->util_types[0] = g->util_types[1] = 'V';
    current = kept;
}

Vertex *hash_lookup(char *s, Graph *g) {
    Graph *kept = current;
    Vertex *found;
    if (!g || g->n <= 0) return NULL;
    current = g;
    found = hash_out(s);
    current = kept;
    return found;
}
