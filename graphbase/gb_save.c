/* GB_SAVE: graphs in files.
 *
 * save_graph writes all records of the blocks of the graph's data that its pointers lead to, so that records that lie side by
 * side do so again when the file is read. What is free at the end of a block is left out. */
#include "gb_save.h"

#include <stdlib.h>

#include "inside.h"

enum { UNKNOWN, VERTICES, ARCS, MIXED };

/* A block of the data, and which records it has: those before `used` are written, from the number `offset` on. */
typedef struct {
    char *first, *end;
    long long age; /* the smaller, the sooner it was taken; 0 is the block of the graph's vertices */
    int kind;
    long long used, explored, offset;
} block;

typedef struct {
    Graph *g;
    char types[15];
    block *blocks; /* by their addresses */
    long long count;
    block *own; /* that of g->vertices */
    long long numbered[MIXED]; /* how many records of vertices and of arcs there are */
    long anomalies;
    sgb_writer w;
} saving;

static const size_t sizes[] = {1, sizeof(Vertex), sizeof(Arc), 1};

/* Blocks */

static int by_address(const void *one, const void *other) {
    const block *p = one, *q = other;
    return p->first < q->first ? -1 : p->first > q->first;
}

static int by_age(const void *one, const void *other) {
    const block *p = *(block *const *)one, *q = *(block *const *)other;
    return p->age < q->age ? -1 : p->age > q->age;
}

/* The block in which an address lies, or NULL. */
static block *block_of(const saving *s, const void *address) {
    const char *at = address;
    long long low = 0, high = s->count;
    while (low < high) {
        long long middle = low + (high - low) / 2;
        if (s->blocks[middle].first <= at) low = middle + 1;
        else high = middle;
    }
    return low > 0 && at < s->blocks[low - 1].end ? &s->blocks[low - 1] : NULL;
}

/* All blocks of the data. That of the vertices begins with the first of these; where they lie elsewhere, they are a block
 * by themselves. */
static int find_blocks(saving *s) {
    struct area_pointers *p;
    Graph *g = s->g;
    long long age = 0;
    for (p = *g->data; p; p = p->next) s->count++;
    s->blocks = calloc((size_t)s->count + 1, sizeof *s->blocks);
    if (!s->blocks) return 0;
    for (p = *g->data; p; p = p->next, age++) {
        block *b = &s->blocks[age];
        b->first = p->first;
        b->end = (char *)p;
        b->age = s->count - age;
    }
    qsort(s->blocks, (size_t)s->count, sizeof *s->blocks, by_address);
    s->own = block_of(s, g->vertices);
    if (!s->own) {
        s->own = &s->blocks[s->count++];
        s->own->end = (char *)(g->vertices + g->n);
    }
    s->own->first = (char *)g->vertices;
    s->own->age = 0;
    s->own->kind = VERTICES;
    s->own->used = g->n;
    qsort(s->blocks, (size_t)s->count, sizeof *s->blocks, by_address);
    s->own = block_of(s, g->vertices);
    return 1;
}

static long long capacity(const block *b) { return (long long)((size_t)(b->end - b->first) / sizes[b->kind]); }

/* The place of a record in its block, or -1 where none begins there. */
static long long place_in(const block *b, const void *address) {
    size_t offset = (size_t)((const char *)address - b->first);
    return offset % sizes[b->kind] == 0 && (long long)(offset / sizes[b->kind]) < capacity(b)
        ? (long long)(offset / sizes[b->kind]) : -1;
}

/* Which blocks are of vertices, and which of arcs */

static void meet(saving *s, int kind, const void *address) {
    block *b = address ? block_of(s, address) : NULL;
    long long place;
    if (!b || b->kind == MIXED) return;
    if (b->kind == UNKNOWN) b->kind = kind;
    place = b->kind == kind ? place_in(b, address) : -1;
    if (b->used <= place) b->used = place + 1;
    /* the graph's own vertices stay what they are */
    if (place < 0 && b != s->own) b->kind = MIXED;
}

static void meet_field(saving *s, char type, const util *value) {
    if (type == 'V' && value->V != ONE) meet(s, VERTICES, value->V);
    if (type == 'A') meet(s, ARCS, value->A);
}

static void meet_fields(saving *s, const char *types, const util *values, int count) {
    int k;
    for (k = 0; k < count; k++) meet_field(s, types[k], &values[k]);
}

/* The utility fields of a record as an array. */
static void fields_of_vertex(const Vertex *v, util values[6]) {
    values[0] = v->u;
    values[1] = v->v;
    values[2] = v->w;
    values[3] = v->x;
    values[4] = v->y;
    values[5] = v->z;
}

static void fields_of_arc(const Arc *a, util values[2]) {
    values[0] = a->a;
    values[1] = a->b;
}

static void fields_of_graph(const Graph *g, util values[6]) {
    values[0] = g->uu;
    values[1] = g->vv;
    values[2] = g->ww;
    values[3] = g->xx;
    values[4] = g->yy;
    values[5] = g->zz;
}

static void explore_record(saving *s, block *b, long long place) {
    util values[6];
    if (b->kind == VERTICES) {
        const Vertex *v = (const Vertex *)(const void *)b->first + place;
        meet(s, ARCS, v->arcs);
        fields_of_vertex(v, values);
        meet_fields(s, s->types, values, 6);
    } else {
        const Arc *a = (const Arc *)(const void *)b->first + place;
        if (a->tip != ONE) meet(s, VERTICES, a->tip);
        meet(s, ARCS, a->next);
        fields_of_arc(a, values);
        meet_fields(s, s->types + 6, values, 2);
    }
}

/* Of the graph's own vertices those are looked at that it counts, and those behind them that something leads to; of other
 * blocks all records. Whether there was anything new. */
static int explore_block(saving *s, block *b) {
    int is_new = 0;
    while ((b->kind == VERTICES || b->kind == ARCS) && b->explored < (b == s->own ? b->used : capacity(b))) {
        explore_record(s, b, b->explored++);
        is_new = 1;
    }
    return is_new;
}

static void explore(saving *s) {
    util values[6];
    int is_new;
    long long k;
    fields_of_graph(s->g, values);
    meet_fields(s, s->types + 8, values, 6);
    do
        for (is_new = 0, k = 0; k < s->count; k++) is_new |= explore_block(s, &s->blocks[k]);
    while (is_new);
}

/* Numbers of records */

/* A pointer is no narrower than a long. */
static int is_zero(const util *values, int count) {
    int k;
    for (k = 0; k < count; k++)
        if (values[k].S) return 0;
    return 1;
}

/* A record that nothing was put into. */
static int is_blank(const block *b, long long place) {
    util values[6];
    if (b->kind == VERTICES) {
        const Vertex *v = (const Vertex *)(const void *)b->first + place;
        fields_of_vertex(v, values);
        return !v->arcs && (!v->name || !*v->name) && is_zero(values, 6);
    } else {
        const Arc *a = (const Arc *)(const void *)b->first + place;
        fields_of_arc(a, values);
        return !a->tip && !a->next && a->len == 0 && is_zero(values, 2);
    }
}

/* Up to which record a block is written: an odd number of arcs gets one more, so that the pairs of a later block are pairs
 * still. */
static void number_block(saving *s, block *b, int is_last) {
    long long used = b == s->own ? b->used : capacity(b);
    while (used > b->used && is_blank(b, used - 1)) used--;
    if (b->kind == ARCS && !is_last) used += used % 2;
    b->used = used;
    b->offset = s->numbered[b->kind];
    s->numbered[b->kind] += used;
}

static int is_written(const block *b) { return b->kind == VERTICES || b->kind == ARCS; }

/* The blocks in their order: the graph's own vertices, and then as they were taken. */
static block **blocks_in_order(const saving *s) {
    block **order = calloc((size_t)s->count + 1, sizeof *order);
    long long k, found = 0;
    if (!order) return NULL;
    for (k = 0; k < s->count; k++)
        if (is_written(&s->blocks[k])) order[found++] = &s->blocks[k];
    qsort(order, (size_t)found, sizeof *order, by_age);
    return order;
}

static void number_blocks(saving *s, block **order) {
    block *last = NULL;
    long long k;
    for (k = 0; order[k]; k++)
        if (order[k]->kind == ARCS) last = order[k];
    for (k = 0; order[k]; k++) number_block(s, order[k], order[k] == last);
}

/* Records in the file */

static void write_address(saving *s, int kind, const void *address) {
    block *b = address ? block_of(s, address) : NULL;
    if (address && !b) s->anomalies |= addr_not_in_data_area;
    if (b && (b->kind != kind || place_in(b, address) < 0)) {
        s->anomalies |= addr_in_mixed_block;
        b = NULL;
    }
    if (b) sgb_write_place(&s->w, kind == VERTICES ? 'V' : 'A', b->offset + place_in(b, address));
    else sgb_write_number(&s->w, 0);
}

static void write_vertex_address(saving *s, const Vertex *v) {
    if (v == ONE) sgb_write_number(&s->w, 1);
    else write_address(s, VERTICES, v);
}

static void write_field(saving *s, char type, const util *value) {
    switch (type) {
    case 'I': sgb_write_number(&s->w, value->I); break;
    case 'S': s->anomalies |= sgb_write_string(&s->w, value->S, STRING_BYTES); break;
    case 'V': write_vertex_address(s, value->V); break;
    case 'A': write_address(s, ARCS, value->A); break;
    default:
        if (value->S) s->anomalies |= ignored_data;
    }
}

static void write_fields(saving *s, const char *types, const util *values, int count) {
    int k;
    for (k = 0; k < count; k++) write_field(s, types[k], &values[k]);
    sgb_write_end(&s->w);
}

static void write_vertex(saving *s, const Vertex *v) {
    util values[6];
    s->anomalies |= sgb_write_string(&s->w, v->name, STRING_BYTES);
    write_address(s, ARCS, v->arcs);
    fields_of_vertex(v, values);
    write_fields(s, s->types, values, 6);
}

static void write_arc(saving *s, const Arc *a) {
    util values[2];
    write_vertex_address(s, a->tip);
    write_address(s, ARCS, a->next);
    sgb_write_number(&s->w, a->len);
    fields_of_arc(a, values);
    write_fields(s, s->types + 6, values, 2);
}

static void write_block(saving *s, const block *b) {
    static const Arc no_arc;
    long long place;
    for (place = 0; place < b->used; place++)
        if (b->kind == VERTICES) write_vertex(s, (const Vertex *)(const void *)b->first + place);
        else write_arc(s, place < capacity(b) ? (const Arc *)(const void *)b->first + place : &no_arc);
}

static void write_blocks(saving *s, block **order, int kind) {
    long long k;
    for (k = 0; order[k]; k++)
        if (order[k]->kind == kind) write_block(s, order[k]);
}

static void write_head(saving *s) {
    char line[100];
    util values[6];
    sprintf(line, "* GraphBase graph (util_types %s,%lldV,%lldA)", s->types, s->numbered[VERTICES], s->numbered[ARCS]);
    sgb_write_line(&s->w, line);
    s->anomalies |= sgb_write_string(&s->w, s->g->id, ID_BYTES);
    sgb_write_number(&s->w, s->g->n);
    sgb_write_number(&s->w, s->g->m);
    fields_of_graph(s->g, values);
    write_fields(s, s->types + 8, values, 6);
}

/* What the file does not tell stands at its end, for who looks at it. */
static void write_anomalies(saving *s) {
    static const char *const lines[] = {
        "> a letter of util_types that no file has counts as Z", "> a string was cut",
        "> an address outside the graph's data was written as 0", "> an address in a block of several kinds was written as 0",
        "> a byte of a string that no file has was written as ?", "> a field of type Z was not 0"};
    size_t k;
    for (k = 0; k < sizeof lines / sizeof *lines; k++)
        if (s->anomalies >> k & 1) sgb_write_line(&s->w, lines[k]);
}

/* The whole file in memory; 0 where there is none. */
static int write_graph(saving *s) {
    block **order;
    char line[60];
    if (!find_blocks(s)) return 0;
    explore(s);
    order = blocks_in_order(s);
    if (!order) return 0;
    number_blocks(s, order);
    write_head(s);
    sgb_write_line(&s->w, "* Vertices");
    write_blocks(s, order, VERTICES);
    sgb_write_line(&s->w, "* Arcs");
    write_blocks(s, order, ARCS);
    sprintf(line, "* Checksum %ld", s->w.sum);
    sgb_write_line(&s->w, line);
    write_anomalies(s);
    free(order);
    return !s->w.is_failed;
}

static int put_file(const char *name, const char *bytes, size_t length) {
    FILE *file = fopen(name, "wb");
    int is_put;
    if (!file) return 0;
    is_put = fwrite(bytes, 1, length, file) == length;
    return fclose(file) == 0 && is_put;
}

long save_graph(Graph *g, char *f) {
    saving s = {0};
    long answer;
    int k;
    if (!g || !g->vertices) return -1;
    s.g = g;
    for (k = 0; k < 14; k++) {
        int is_type = g->util_types[k] && strchr("ZIVSA", g->util_types[k]);
        s.types[k] = is_type ? g->util_types[k] : 'Z';
        if (!is_type) s.anomalies |= bad_type_code;
    }
    sgb_write_begin(&s.w);
    if (!write_graph(&s)) answer = -2;
    else answer = put_file(f, s.w.bytes, s.w.length) ? s.anomalies : -3;
    free(s.w.bytes);
    free(s.blocks);
    return answer;
}
