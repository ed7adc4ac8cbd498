/* GraphBase's own calls on random graphs and files (checks/from_outside/graphbase.py). A graph is made arc by arc, and
 * saved; what an operation makes of it in memory is what the proved library makes of its file. Files are spoiled; they are
 * read, or refused, as the proved library reads them. It prints what differs, and last how many were looked at.
 *
 *     gb_random FOLDER SEED GRAPHS FILES */
#include <stdbool.h>
#include <stdint.h>
#include <stdlib.h>

#include "gb_graph.h"

#include "gb_basic.h"
#include "gb_flip.h"
#include "gb_save.h"
#include "inside.h"
#include "sgb.h"

static long looked, wrong, made;
static char path[4096], *file;
static size_t file_length;

static void is(int right, const char *what, long one, long other) {
    looked++;
    if (right) return;
    wrong++;
    printf("graph or file %ld, %s: %ld, and not %ld\n", made, what, one, other);
}

/* The bytes of a graph's file. */
static void save(Graph *g) {
    FILE *in;
    long anomalies = save_graph(g, path);
    is(anomalies == 0, "anomalies", anomalies, 0);
    in = fopen(path, "r");
    free(file);
    file = malloc(1 << 20);
    file_length = in && file ? fread(file, 1, 1 << 20, in) : 0;
    if (in) fclose(in);
}

static int same_lists(Graph *g, Graph *h, long k) {
    Arc *a = g->vertices[k].arcs, *b = h->vertices[k].arcs;
    for (; a && b; a = a->next, b = b->next)
        if (a->tip - g->vertices != b->tip - h->vertices || a->len != b->len || (a->next == a + 1) != (b->next == b + 1))
            return 0;
    return !a && !b;
}

static int same(Graph *g, Graph *h) {
    long k;
    if (g->n != h->n || g->m != h->m || strcmp(g->id, h->id) != 0) return 0;
    for (k = 0; k < g->n; k++)
        if (strcmp(g->vertices[k].name, h->vertices[k].name) != 0 || !same_lists(g, h, k)) return 0;
    return 1;
}

/* The graph that is held, with its own id or another; NULL and the answer. */
static Graph *held_graph(uint64_t *answer, sgb_graph *held) {
    uint64_t size = 0;
    char *bytes = NULL;
    long code = 0;
    Graph *g = NULL;
    if (*answer == SGB_OK) *answer = sgb_file_size(held, &size);
    if (*answer == SGB_OK) {
        bytes = malloc(size);
        *answer = sgb_file(held, bytes, size);
        g = sgb_read_graph(bytes, size, &code);
    }
    free(bytes);
    sgb_close(held);
    return g;
}

/* What the proved library makes of the file, and what was made in memory. */
static void compare(uint64_t answer, sgb_graph *held, Graph *seen, const char *what) {
    Graph *wanted = held_graph(&answer, held);
    is((seen != NULL) == (wanted != NULL), what, seen ? 0 : panic_code, (long)answer);
    if (seen && wanted) is(same(seen, wanted), what, seen->m, wanted->m);
    if (!seen && !wanted) is(panic_code == (long)answer, what, panic_code, (long)answer);
    gb_recycle(seen);
    gb_recycle(wanted);
}

static void of_file(const char *expression, Graph *seen) {
    sgb_graph held = SGB_NO_GRAPH;
    compare(sgb_open(expression, strlen(expression), file, file_length, &held), &held, seen, expression);
}

/* ------------------------------------------------------------------------------------------------------------------- */

static void take_off(Vertex *v, Arc *a) {
    Arc **at = &v->arcs;
    while (*at != a) at = &(*at)->next;
    *at = a->next;
}

/* Takes an edge off its two lists. */
static void remove_edge(Graph *g) {
    Vertex *v = g->vertices + gb_unif_rand(g->n);
    Arc *a = v->arcs, *mate;
    if (!a) return;
    mate = (siz_t)a & edge_trick ? a - 1 : a + 1;
    take_off(v, a);
    take_off(a->tip, mate);
    g->m -= 2;
}

/* Takes one arc off its list; the other one of an edge stays. */
static void remove_arc(Graph *g) {
    Vertex *v = g->vertices + gb_unif_rand(g->n);
    if (v->arcs) take_off(v, v->arcs);
    g->m -= gb_unif_rand(2L) && g->m > 0;
}

/* A graph of edges, of arcs, or of both, some parallel, and loops; some edges or arcs are taken away again, and two vertices
 * may share a list. */
static Graph *random_graph(void) {
    long n = 1 + gb_unif_rand(7L), count = gb_unif_rand(12L), style = gb_unif_rand(3L), k;
    Graph *g = gb_new_graph(n);
    char name[20];
    for (k = 0; k < n; k++) {
        sprintf(name, "%ld", gb_unif_rand(20L));
        g->vertices[k].name = gb_save_string(name);
    }
    for (k = 0; k < count; k++) {
        Vertex *u = g->vertices + gb_unif_rand(n), *v = g->vertices + gb_unif_rand(n);
        if (style == 0 || (style == 2 && gb_unif_rand(2L))) gb_new_edge(u, v, gb_unif_rand(5L) - 2);
        else gb_new_arc(u, v, gb_unif_rand(5L) - 2);
    }
    for (k = gb_unif_rand(3L); style == 0 && k > 0; k--) remove_edge(g);
    for (k = gb_unif_rand(6L) - 3; k > 0; k--) remove_arc(g);
    if (gb_unif_rand(5L) == 0) g->vertices->arcs = g->vertices[gb_unif_rand(n)].arcs; /* two share a list */
    return g;
}

static void operations(Graph *g) {
    char text[200];
    long a = gb_unif_rand(2L), b = gb_unif_rand(2L), c = gb_unif_rand(2L), type = gb_unif_rand(4L);
    save(g);
    of_file("stdin", restore_graph(path));
    sprintf(text, "complement(stdin,%ld,%ld,%ld)", a, b, c);
    of_file(text, complement(g, a, b, c));
    sprintf(text, "gunion(stdin,stdin,%ld,%ld)", a, b);
    of_file(text, gunion(g, g, a, b));
    sprintf(text, "intersection(stdin,stdin,%ld,%ld)", a, b);
    of_file(text, intersection(g, g, a, b));
    sprintf(text, "lines(stdin,%ld)", a);
    of_file(text, lines(g, a));
    sprintf(text, "product(stdin,stdin,%ld,%ld)", type, a);
    of_file(text, product(g, g, type, a));
}

/* Entries from -2 to 3, and graphs. */
static void induced_graphs(Graph *g, Graph *inner) {
    char text[400] = "induced(stdin,[", end[30];
    long k, a = gb_unif_rand(2L), b = gb_unif_rand(2L), c = gb_unif_rand(2L);
    for (k = 0; k < g->n; k++) {
        long entry = gb_unif_rand(7L) - 2;
        Vertex *v = g->vertices + k;
        v->ind = entry == 4 ? IND_GRAPH : entry;
        v->subst = inner;
        if (entry == 4) strcat(text, k ? ",board(3,0,0,0,1,1,1)" : "board(3,0,0,0,1,1,1)");
        else sprintf(text + strlen(text), k ? ",%ld" : "%ld", entry);
    }
    sprintf(end, "],%ld,%ld,%ld)", a, b, c);
    strcat(text, end);
    of_file(text, induced(g, NULL, a, b, c));
    for (k = 0; k < g->n; k++) {
        g->vertices[k].ind = 0;
        g->vertices[k].subst = NULL;
    }
}

static void of_two(Graph *g, Graph *gg) {
    sgb_graph one = SGB_NO_GRAPH, other = SGB_NO_GRAPH, result = SGB_NO_GRAPH;
    long a = gb_unif_rand(2L), b = gb_unif_rand(2L), type = gb_unif_rand(3L);
    save(g);
    is(sgb_open("stdin", 5, file, file_length, &one) == SGB_OK, "one graph of two", 1, 0);
    save(gg);
    is(sgb_open("stdin", 5, file, file_length, &other) == SGB_OK, "the other of two", 1, 0);
    compare(sgb_gunion(&one, &other, a, b, &result), &result, gunion(g, gg, a, b), "gunion of two");
    compare(sgb_intersection(&other, &one, a, b, &result), &result, intersection(gg, g, a, b), "intersection of two");
    compare(sgb_product(&one, &other, type, a, &result), &result, product(g, gg, type, a), "product of two");
    sgb_close(&one);
    sgb_close(&other);
}

static void graphs(long count) {
    Graph *inner = cycle(3L);
    for (made = 0; made < count; made++) {
        Graph *g = random_graph(), *gg = random_graph();
        operations(g);
        induced_graphs(g, inner);
        of_two(g, gg);
        gb_recycle(g);
        gb_recycle(gg);
    }
    gb_recycle(inner);
}

/* ------------------------------------------------------------------------------------------------------------------- */

static const char *const bases[] = {
    "* GraphBase graph (util_types ZZZIIIZZZZZZZZ,2V,2A)\n\"board(2,0,0,0,-1,0,0)\",2,2\n"
    "* Vertices\n\"0\",A0,0,0,0\n\"1\",A1,1,0,0\n* Arcs\nV1,0,1\nV0,0,1\n* Checksum 1066721325\n",
    "* by hand\n* GraphBase graph (util_types SVAIZZIVVASIZZ,2V,3A)\n\"a\",2,3,V0,A2,\"b c\",-7\n"
    "* Vertices\n\"one\",A0,\"s\",V1,A1,7\n\"two\\\n, too\",A2,\"\",1,0,-9223372036854775808\n* Arcs\nV1,A1,3,5,V0\nV0,0,-4,-05,0\nV1,0,00012,1,1\n* Checksum -1\n",
    "* GraphBase graph (util_types ZZZZZZZZZZZZZZ,0V,0A)\n\"\",0,0\n* Vertices\n* Arcs\n* Checksum 10363\n"};

/* Some bytes changed, left out or added, or the end cut off. */
static size_t spoiled(char *to, const char *base) {
    static const char bytes[] = "0123456789VAZIS\"\\,\n *-+~x\t";
    size_t length = strlen(base), at;
    long k;
    memcpy(to, base, length);
    for (k = gb_unif_rand(4L); k > 0 && length > 0; k--) {
        char byte = bytes[gb_unif_rand((long)sizeof bytes - 1)];
        at = (size_t)gb_unif_rand((long)length);
        switch (gb_unif_rand(4L)) {
        case 0: to[at] = byte; break;
        case 1: memmove(to + at, to + at + 1, --length - at); break;
        case 2:
            memmove(to + at + 1, to + at, length++ - at);
            to[at] = byte;
            break;
        default:
            if (gb_unif_rand(10L) == 0) length = at;
        }
    }
    return length;
}

/* Whether the file has more vertices than the graph counts, which libgb alone reads. */
static int has_more(const char *text) {
    const char *head = strstr(text, "util_types "), *quote = head ? strstr(head, "\",") : NULL;
    long records, n;
    return quote && sscanf(head, "util_types %*[A-Z],%ldV", &records) == 1 && sscanf(quote + 2, "%ld", &n) == 1 && n < records;
}

/* A file is read, or refused, as the proved library does it; whether it is read. */
static int is_read(const char *text, size_t length) {
    sgb_graph held = SGB_NO_GRAPH;
    long code = 0;
    uint64_t answer = sgb_open("stdin", 5, text, length, &held);
    char *own = malloc(length + 1); /* so that no byte behind it is read */
    Graph *g, *wanted;
    int was_read;
    memcpy(own, text, length);
    g = sgb_read_graph(own, length, &code);
    was_read = g != NULL;
    if (has_more(text)) sgb_close(&held);
    else {
        is(g ? answer == SGB_OK : (long)answer == code, "a spoiled file", code, (long)answer);
        wanted = held_graph(&answer, &held);
        if (g && wanted) is(same(g, wanted), "a file", g->m, wanted->m);
        gb_recycle(wanted);
    }
    free(own);
    gb_recycle(g);
    return was_read;
}

/* What the second file has, and what stands there instead; whether it is read then. */
static const struct {
    const char *old, *now;
    int is_good;
} changes[] = {
    {"V1,A1,3,5", "V1,A1,3,5", 1}, {"V1,A1,3,5", "V1,A0,3,5", 0}, {"V0,0,-4", "V0,A0,-4", 0}, {"V0,0,-4", "V0,A2,-4", 1},
    {"V1,0,00012", "0,0,00012", 0}, {"V1,0,00012", "1,0,00012", 0}, {"A2,\"\"", "A0,\"\"", 1}, {"V0,0,-4", "1,0,-4", 0},
    {"5808", "5809", 0}, {"-9223372036854775808", "9223372036854775807", 1}, {"-9223372036854775808", "9223372036854775808", 0},
    {"-9223372036854775808", "18446744073709551617", 0}, {"-9223372036854775808", "00000000000000000012", 1},
    {"-9223372036854775808", "000000000000000000012", 0}, {"-9223372036854775808", "-", 0}, {"-9223372036854775808", "", 0},
    {"Checksum -1", "Checksum -0", 0}, {"Checksum -1", "Checksum -01 and more", 1}, {"Checksum -1", "Checksum 5", 0},
    {"Checksum -1", "Checksum -", 0}, {"Checksum -1", "Checksum -123456789012345678", 1}, {"Checksum -1", "checksum -1", 0},
    {"Checksum -1", "Checksum -1234567890123456789", 0}, {"A0,\"s\"", "\nA0,\"s\"  ", 0}, {"\"one\",A0", "\"one\",\nA0", 1},
    {"\"one\",A0", "\"one\",  \nA0", 1}, {"\"one\",A0", "\"one\",\n\nA0", 0}, {"\"one\",A0", "\"one\"\n,A0", 0},
    {"\"one\",A0", "\"one\", A0", 0}, {"b c", "b \\\n\\\nc", 1}, {"b c", "b\nc", 0}, {"b c", "b\\c", 0}, {"A1,7", "A1,7,", 0},
    {"A1,7", "A1,7   ", 1}, {"* Vertices", "* Vertices  ", 1}, {"* Vertices", " * Vertices", 0}, {"* Arcs", "* Arcs\n", 0},
    {"2V,3A", "2V,4A", 0}, {"2V,3A", "2V,2A", 0}, {"2V,3A", "02V,003A) and more", 1}, {"2V,3A", "1000000001V,3A", 0},
    {"2V,3A", "2V,999999999999999999A", 0}, {"\"a\",2,3", "\"a\",3,3", 0}, {"\"a\",2,3", "\"a\",2,-3", 0},
    {"SVAIZZIVVASIZZ", "SVAIZZIVVASIZ", 0}, {"SVAIZZIVVASIZZ", "SVAIZZIVVASIZZZ", 0}, {"SVAIZZIVVASIZZ", "SVAIZZIVVASIZG", 0},
    {"* by hand", "by hand", 0}, {"* by hand", "", 0}, {"* by hand", "*", 1},
    {",3,5,V0", ",3,00,V0", 1}, {"V0,0,-4,-05", "V0,0,-4,+5", 0},
};

static void known_files(void) {
    char text[2000];
    size_t k;
    for (k = 0; k < sizeof changes / sizeof *changes; k++) {
        const char *place = strstr(bases[1], changes[k].old);
        made = (long)k;
        if (!place) is(0, "a change of what is not there", 0, 0);
        else {
            sprintf(text, "%.*s%s%s", (int)(place - bases[1]), bases[1], changes[k].now, place + strlen(changes[k].old));
            is(is_read(text, strlen(text)) == changes[k].is_good, changes[k].now, 0, changes[k].is_good);
        }
    }
}

static void files(long count) {
    char text[2000];
    long read = 0;
    for (made = 0; made < count; made++) {
        size_t length = spoiled(text, bases[made % 3]);
        text[length] = '\0';
        read += is_read(text, length);
    }
    is(read > count / 50 && read < count, "files that were read", read, count);
}

int main(int count, char **words) {
    if (count != 5) return 2;
    snprintf(path, sizeof path, "%s/random.gb", words[1]);
    gb_init_rand(atol(words[2]));
    graphs(atol(words[3]));
    known_files();
    files(atol(words[4]));
    free(file);
    printf("%ld looked at, %ld wrong\n", looked, wrong);
    return wrong > 0;
}
