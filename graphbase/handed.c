/* Graphs handed to the proved library as files in memory, and taken of it so.
 *
 * GB_BASIC asks of an arc which record lies behind it in memory, since there the second arc of an edge is. So records of lists
 * that lie side by side have numbers one after another in the file, and the last of them is followed by what lies behind it, on
 * no list. */
#include "handed.h"

#include <stdlib.h>

#include "inside.h"

#define MOST_ARCS_COUNTED 999999999999999999LL

/* Arcs of lists that lie side by side, and the number of the first of them. */
typedef struct {
    const Arc *first;
    long long count, number;
} stretch;

/* A block of the graph's memory. */
typedef struct {
    const char *first, *end;
} block;

typedef struct {
    const Graph *g;
    const Arc **arcs; /* of all lists, each once, by their addresses */
    long long count;
    stretch *stretches;
    long long stretches_count;
    block *blocks; /* by their addresses */
    long long blocks_count;
} lists;

static int is_vertex_of(const Graph *g, const Vertex *v) { return v >= g->vertices && v < g->vertices + g->n; }

/* How many arcs a list has, or -1: it does not end, or leads out of the graph. `seen` is an arc of the list that moves on
 * whenever the steps since have doubled, so that a list which comes back meets it. */
static long long length_of_list(const Graph *g, const Vertex *v) {
    const Arc *a, *seen = NULL;
    long long length = 0, limit = 1;
    for (a = v->arcs; a; a = a->next) {
        if (a == seen || !is_vertex_of(g, a->tip)) return -1;
        if (++length == limit) {
            limit *= 2;
            seen = a;
        }
    }
    return length;
}

static int by_address(const void *one, const void *other) {
    const Arc *p = *(const Arc *const *)one, *q = *(const Arc *const *)other;
    return p < q ? -1 : p > q;
}

/* All arcs of the lists, each once: vertices may share a list. */
static long find_arcs(lists *l) {
    const Graph *g = l->g;
    const Vertex *v;
    const Arc *a;
    long long total = 0, k, apart;
    for (v = g->vertices; v < g->vertices + g->n; v++) {
        long long length = length_of_list(g, v);
        if (length < 0) return invalid_operand;
        total += length;
    }
    l->arcs = malloc(((size_t)total + 1) * sizeof *l->arcs);
    if (!l->arcs) return no_room;
    for (v = g->vertices; v < g->vertices + g->n; v++)
        for (a = v->arcs; a; a = a->next) l->arcs[l->count++] = a;
    qsort(l->arcs, (size_t)total, sizeof *l->arcs, by_address);
    for (k = 0, apart = 0; k < total; k++)
        if (k == 0 || l->arcs[k] != l->arcs[k - 1]) l->arcs[apart++] = l->arcs[k];
    l->count = apart;
    return 0;
}

static int begins_stretch(const lists *l, long long k) { return k == 0 || l->arcs[k] != l->arcs[k - 1] + 1; }

static long find_stretches(lists *l) {
    long long k, found = 0;
    for (k = 0; k < l->count; k++) found += begins_stretch(l, k);
    l->stretches = malloc(((size_t)found + 1) * sizeof *l->stretches);
    if (!l->stretches) return no_room;
    for (k = 0; k < l->count; k++) {
        if (begins_stretch(l, k)) {
            stretch *s = &l->stretches[l->stretches_count];
            s->first = l->arcs[k];
            s->count = 0;
            s->number = k + l->stretches_count++;
        }
        l->stretches[l->stretches_count - 1].count++;
    }
    return 0;
}

static long long number_of(const lists *l, const Arc *a) {
    long long low = 0, high = l->stretches_count;
    while (high - low > 1) {
        long long middle = low + (high - low) / 2;
        if (l->stretches[middle].first <= a) low = middle;
        else high = middle;
    }
    return l->stretches[low].number + (a - l->stretches[low].first);
}

/* What lies behind */

static int by_first(const void *one, const void *other) {
    const block *p = one, *q = other;
    return p->first < q->first ? -1 : p->first > q->first;
}

static void add_blocks(lists *l, const struct area_pointers *p) {
    for (; p; p = p->next, l->blocks_count++) {
        if (!l->blocks) continue;
        l->blocks[l->blocks_count].first = p->first;
        l->blocks[l->blocks_count].end = (const char *)p;
    }
}

/* All blocks of the graph: they are counted first. */
static long find_blocks(lists *l) {
    add_blocks(l, *l->g->data);
    add_blocks(l, *l->g->aux_data);
    l->blocks = malloc(((size_t)l->blocks_count + 1) * sizeof *l->blocks);
    if (!l->blocks) return no_room;
    l->blocks_count = 0;
    add_blocks(l, *l->g->data);
    add_blocks(l, *l->g->aux_data);
    qsort(l->blocks, (size_t)l->blocks_count, sizeof *l->blocks, by_first);
    return 0;
}

/* The record behind one, where the same block has room for it; else NULL, and nobody can know what is there. */
static const Arc *behind(const lists *l, const Arc *a) {
    const char *at = (const char *)a;
    long long low = 0, high = l->blocks_count;
    while (low < high) {
        long long middle = low + (high - low) / 2;
        if (l->blocks[middle].first <= at) low = middle + 1;
        else high = middle;
    }
    if (low == 0 || at >= l->blocks[low - 1].end) return NULL;
    return (size_t)(l->blocks[low - 1].end - at) >= 2 * sizeof(Arc) ? a + 1 : NULL;
}

/* The file */

static void write_arc_of(const lists *l, sgb_writer *w, const Arc *a) {
    if (a) sgb_write_place(w, 'A', number_of(l, a));
    else sgb_write_number(w, 0);
}

static void write_record(const lists *l, sgb_writer *w, const Vertex *tip, const Arc *next, long len) {
    if (is_vertex_of(l->g, tip)) sgb_write_place(w, 'V', tip - l->g->vertices);
    else sgb_write_number(w, 0);
    write_arc_of(l, w, next);
    sgb_write_number(w, len);
    sgb_write_end(w);
}

static void write_arcs(const lists *l, sgb_writer *w) {
    long long k;
    for (k = 0; k < l->count; k++) {
        const Arc *a = l->arcs[k], *last;
        write_record(l, w, a->tip, a->next, a->len);
        if (k + 1 < l->count && !begins_stretch(l, k + 1)) continue;
        last = behind(l, a);
        write_record(l, w, last ? last->tip : NULL, NULL, 0L);
    }
}

/* Whether all names can stand in a file. */
static int write_vertices(const lists *l, sgb_writer *w) {
    const Graph *g = l->g;
    const Vertex *v;
    long anomalies = 0;
    for (v = g->vertices; v < g->vertices + g->n; v++) {
        anomalies |= sgb_write_string(w, v->name, STRING_BYTES);
        write_arc_of(l, w, v->arcs);
        sgb_write_end(w);
    }
    return !anomalies;
}

/* The file of the lists. Its id is short, and its checksum is not compared: both are nobody's. */
static long write_file(const lists *l, sgb_writer *w) {
    const Graph *g = l->g;
    char line[100];
    long long m = g->m;
    sprintf(line, "* GraphBase graph (util_types ZZZZZZZZZZZZZZ,%ldV,%lldA)", g->n, l->count + l->stretches_count);
    sgb_write_line(w, line);
    sgb_write_string(w, "g", ID_BYTES);
    sgb_write_number(w, g->n);
    sgb_write_number(w, m < 0 || m > MOST_ARCS_COUNTED ? 0 : m);
    sgb_write_end(w);
    sgb_write_line(w, "* Vertices");
    if (!write_vertices(l, w)) return invalid_operand;
    sgb_write_line(w, "* Arcs");
    write_arcs(l, w);
    sgb_write_line(w, "* Checksum -1");
    return w->is_failed ? no_room : 0;
}

long sgb_open_operand(const Graph *g, sgb_graph *held) {
    lists l = {0};
    sgb_writer w;
    long code;
    sgb_write_begin(&w);
    l.g = g;
    code = find_arcs(&l);
    if (!code) code = find_stretches(&l);
    if (!code) code = find_blocks(&l);
    if (!code) code = write_file(&l, &w);
    free(l.arcs);
    free(l.stretches);
    free(l.blocks);
    if (!code) {
        uint64_t answer = sgb_open("stdin", 5, w.bytes, w.length, held);
        code = answer == SGB_OK ? 0 : answer == SGB_NO_ROOM ? no_room : invalid_operand;
    }
    free(w.bytes);
    return code;
}

/* Results */

static char *file_of(sgb_graph *held, uint64_t *size, uint64_t *answer) {
    char *bytes = NULL;
    *answer = sgb_file_size(held, size);
    if (*answer == SGB_OK) {
        bytes = malloc(*size);
        *answer = bytes ? sgb_file(held, bytes, *size) : SGB_NO_ROOM;
    }
    return bytes;
}

Graph *sgb_taken(uint64_t answer, sgb_graph *held) {
    uint64_t size = 0;
    long code = impossible;
    char *bytes = answer == SGB_OK ? file_of(held, &size, &answer) : NULL;
    Graph *g = NULL;
    sgb_close(held);
    if (answer == SGB_OK) g = sgb_read_graph(bytes, size, &code);
    else if (answer < SGB_TEXT_TOO_LARGE) code = (long)answer;
    free(bytes);
    if (!g) panic_code = code;
    return g;
}
