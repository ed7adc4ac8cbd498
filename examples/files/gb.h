/* Reads a .gb file, as `sgb save` writes it, into the structures of the Stanford GraphBase. One header, C99, 64-bit long.

     Graph *g = gb_read(stdin);        NULL where the file is refused; gb_code says why, as the codes of sgb do
     for (Vertex *v = g->vertices; v < g->vertices + g->n; v++)
         for (Arc *a = v->arcs; a; a = a->next) printf("%s -> %s, length %ld\n", v->name, a->tip->name, a->len);
     free(g);                          all of it is one block; gb_recycle(g) does the same

   Where gb_graph.h was included before, its structures are taken; else they are declared here in the same way. */
#pragma once
#include <errno.h>
#include <stdio.h>
#include <stdlib.h>
#include <string.h>
#ifndef ID_FIELD_SIZE
#define ID_FIELD_SIZE 161
typedef union { struct vertex_struct *V; struct arc_struct *A; struct graph_struct *G; char *S; long I; } util;
typedef struct vertex_struct { struct arc_struct *arcs; char *name; util u, v, w, x, y, z; } Vertex;
typedef struct arc_struct { Vertex *tip; struct arc_struct *next; long len; util a, b; } Arc;
typedef struct area_pointers { char *first; struct area_pointers *next; } *Area[1]; /* not used here */
typedef struct graph_struct {
    Vertex *vertices; long n, m; char id[ID_FIELD_SIZE], util_types[15];
    Area data, aux_data; util uu, vv, ww, xx, yy, zz;
} Graph;
#endif

/* -1 the file could not be read, 1 no memory, 10 no first line, 20 a wrong record or list, 11 a wrong checksum or none */
static long gb_code;

/* where the text is read, room for strings, the vertices and arc records, and how many there are */
typedef struct { const char *at; char *strings; Graph *graph; Vertex *vertices; Arc *arcs; long n, m; } gb_reader;
static inline int gb_text(gb_reader *r, const char *text) {
    size_t length = strlen(text);
    return !strncmp(r->at, text, length) && (r->at += length);
}
static inline int gb_number(gb_reader *r, int may_be_negative, size_t most_digits, long *value) {
    const char *from = r->at, *digits = from + (may_be_negative && *from == '-');
    size_t count = strspn(digits, "0123456789");
    r->at = digits + count, errno = 0;
    return count > 0 && count <= most_digits && (*value = strtol(from, NULL, 10), errno == 0);
}
/* printable bytes in quotes; a backslash at the end of a line counts as nothing, with the end of the line */
static inline int gb_string(gb_reader *r, long most_bytes, char **value) {
    *value = r->strings;
    if (*r->at != '"') return 0;
    for (r->at++; *r->at != '"'; r->at++) {
        if (r->at[0] == '\\' && r->at[1] == '\n') r->at++;
        else if (*r->at < ' ' || *r->at > '~' || *r->at == '\\' || r->strings - *value == most_bytes) return 0;
        else *r->strings++ = *r->at;
    }
    return *r->strings++ = '\0', gb_text(r, "\"");
}
/* A field by its letter: those of util_types, i for an id, n for a number without a sign. A V may be 0 or 1, an A 0. */
static inline int gb_field(gb_reader *r, char letter, util *value) {
    long k;
    if (letter == 'I' || letter == 'n') return gb_number(r, letter == 'I', letter == 'I' ? 20 : 18, &value->I);
    if (letter == 'S' || letter == 'i') return gb_string(r, letter == 'S' ? 4095 : ID_FIELD_SIZE - 1, &value->S);
    if (*r->at == '0' || (*r->at == '1' && letter == 'V')) return value->I = *r->at++ - '0', 1;
    if (*r->at++ != letter || !gb_number(r, 0, 18, &k) || k >= (letter == 'V' ? r->n : r->m)) return 0;
    return letter == 'V' ? (value->V = r->vertices + k) != NULL : (value->A = r->arcs + k) != NULL;
}
/* The fields of a record, which ends with a line: with commas between them, after which a line may end. Z is no field. */
static inline int gb_record(gb_reader *r, const char *letters, util *f) {
    for (int i = 0; letters[i]; i++) {
        f[i].S = NULL;
        if (letters[i] == 'Z') continue;
        if ((i > 0 && !gb_text(r, ",\n") && !gb_text(r, ",")) || !gb_field(r, letters[i], f + i)) return 0;
    }
    return gb_text(r, "\n");
}
static inline int gb_records(gb_reader *r, const char *letters) {
    Graph *g = r->graph;
    util f[9];
    char graph[10] = "inn", vertex[9] = "SA", arc[6] = "VAI";
    strncat(vertex, letters, 6), strncat(arc, letters + 6, 2), strncat(graph, letters + 8, 6);
    if (!gb_record(r, graph, f) || f[1].I != r->n || !gb_text(r, "* Vertices\n")) return 0;
    strcpy(g->id, f[0].S), memcpy(g->util_types, letters, 14), g->vertices = r->vertices, g->n = r->n, g->m = f[2].I;
    g->uu = f[3], g->vv = f[4], g->ww = f[5], g->xx = f[6], g->yy = f[7], g->zz = f[8];
    for (Vertex *v = r->vertices; v < r->vertices + r->n; v++) {
        if (!gb_record(r, vertex, f)) return 0;
        v->name = f[0].S, v->arcs = f[1].A, v->u = f[2], v->v = f[3], v->w = f[4], v->x = f[5], v->y = f[6], v->z = f[7];
    }
    if (!gb_text(r, "* Arcs\n")) return 0;
    for (Arc *a = r->arcs; a < r->arcs + r->m; a++) {
        if (!gb_record(r, arc, f)) return 0;
        a->tip = f[0].V, a->next = f[1].A, a->len = f[2].I, a->a = f[3], a->b = f[4];
    }
    return 1;
}
/* The sum of the lines from this one on that begin with no star, unless the one in the file is negative. */
static inline int gb_sum_is_right(gb_reader *r, const char *line) {
    const char *order = "0123456789ABCDEFGHIJKLMNOPQRSTUVWXYZabcdefghijklmnopqrstuvwxyz"
        "_^~&@,;.:?!%#$+-*/|\\<=>()[]{}`'\" \n", *end = r->at;
    long sum = 0, wanted;
    if (!gb_text(r, "* Checksum ") || !gb_number(r, 1, 18, &wanted)) return 0;
    for (int has_star = 0; line < end; line++) {
        if (line[-1] == '\n') has_star = *line == '*';
        if (!has_star) sum = (2 * sum + (strchr(order, *line) - order)) % 1073741741;
    }
    return wanted < 0 || wanted == sum;
}
/* Whether each record's chain ends and each list leads to vertices; walks[k]: the walk that met record k, -1 of a list */
static inline int gb_lists_are_right(gb_reader *r, long *walks) {
    Arc *a, *arcs = r->arcs;
    for (long k = 0; k < r->m; k++) {
        for (a = arcs + k; a && !walks[a - arcs]; a = a->next) walks[a - arcs] = k + 1;
        if (a && walks[a - arcs] == k + 1) return 0;
    }
    for (Vertex *v = r->vertices; v < r->vertices + r->n; v++)
        for (a = v->arcs; a && walks[a - arcs] > 0; walks[a - arcs] = -1, a = a->next)
            if ((size_t)a->tip <= 1) return 0;
    return 1;
}
/* The whole file in half of its room, with an end for each line, no spaces before it, and no null bytes. */
static inline char *gb_whole(FILE *file, size_t *size) {
    char *text = NULL, *more = NULL;
    size_t n = 0;
    for (int c = 0; c != EOF; text[n] = '\0') {
        if ((n & (n - 1)) == 0 && !(more = realloc(text, 4 * n + 64))) return gb_code = 1, free(text), NULL;
        text = more;
        c = getc(file);
        while ((c == '\n' || c == EOF) && n > 0 && text[n - 1] == ' ') n--;
        if (c != EOF || (n > 0 && text[n - 1] != '\n')) text[n++] = (char)(c == EOF ? '\n' : c ? c : 1);
    }
    return *size = n, ferror(file) ? gb_code = -1, free(text), NULL : text;
}
static inline int gb_first_line(gb_reader *r) {
    return gb_text(r, "* GraphBase graph (util_types ") && strspn(r->at, "ZIVSA") == 14 && (r->at += 14) &&
        gb_text(r, ",") && gb_number(r, 0, 18, &r->n) && gb_text(r, "V,") && r->n <= 1000000000 &&
        gb_number(r, 0, 18, &r->m) && gb_text(r, "A)");
}
static inline Graph *gb_read(FILE *file) {
    size_t size;
    char *text = gb_whole(file, &size);
    const char *line = text, *letters;
    gb_reader r = {0};
    if (!text) return NULL;
    for (gb_code = 10; r.at = line, !gb_first_line(&r); line = strchr(line, '\n') + 1)
        if (*line != '*') return free(text), NULL;
    letters = line + strlen("* GraphBase graph (util_types ");
    r.at = line = strchr(line, '\n') + 1;
    gb_code = (size_t)r.n > size || (size_t)r.m > size ? 20 : 1; /* each record takes a line */
    if (gb_code == 1) r.graph = calloc(1, sizeof(Graph) + r.n * sizeof(Vertex) + r.m * sizeof(Arc) + size);
    if (!r.graph) return free(text), NULL;
    r.vertices = (Vertex *)(r.graph + 1), r.arcs = (Arc *)(r.vertices + r.n), r.strings = (char *)(r.arcs + r.m);
    gb_code = !gb_records(&r, letters) ? 20 : !gb_sum_is_right(&r, line) ? 11 :
        !gb_lists_are_right(&r, memset(text, 0, r.m * sizeof(long))) ? 20 : 0;
    if (gb_code) free(r.graph), r.graph = NULL;
    return free(text), r.graph;
}
