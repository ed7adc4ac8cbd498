/* The program's names, list and save by the library for C, to hold the library against conformance/graphs.tsv:
 *
 *     cc caller.c $(pkg-config --cflags --libs sgb) -o caller
 *     conformance/compare.py ./caller
 */
#include <inttypes.h>
#include <stdio.h>
#include <stdlib.h>
#include <string.h>
#ifdef _WIN32
#include <fcntl.h>
#include <io.h>
#endif

#include "sgb.h"

static void *room(size_t count, size_t size) {
    void *at = calloc(count + 1, size);
    if (at) return at;
    fputs("caller: out of memory\n", stderr);
    exit(3);
}

static void must(uint64_t answer) {
    if (!answer) return;
    if (answer >= SGB_BAD_EXPRESSION) {
        fprintf(stderr, "sgb: bad expression at byte %" PRIu64 "\n", answer - SGB_BAD_EXPRESSION);
    } else if (answer == SGB_TEXT_TOO_LARGE) {
        fputs("sgb: expression too large\n", stderr);
    } else {
        fprintf(stderr, "Something went wrong (panic code %" PRIu64 ")!\n", answer);
        exit(1);
    }
    exit(2);
}

static void save(sgb_graph *graph) {
    uint64_t size;
    must(sgb_file_size(graph, &size));
    char *bytes = room(size, 1);
    must(sgb_file(graph, bytes, size));
    fwrite(bytes, 1, size, stdout);
}

/* The names, and in a listing the arcs of each vertex below its name. */
static void show(sgb_graph *graph, bool with_arcs) {
    sgb_graph_sizes sizes;
    uint64_t arcs, m, bytes;
    must(sgb_sizes(graph, &sizes));
    size_t n = sizes.vertices;
    must(sgb_arcs(graph, &arcs));
    must(sgb_rows_size(graph, 0, n, &m));
    must(sgb_names_size(graph, 0, n, &bytes));
    uint64_t *starts = room(n + 1, sizeof *starts), *begins = room(n + 1, sizeof *begins);
    uint32_t *tips = room(m, sizeof *tips);
    int64_t *lengths = room(m, sizeof *lengths);
    char *names = room(bytes, 1), *id = room(sizes.id, 1);
    must(sgb_rows(graph, 0, n, starts, n + 1, tips, m, lengths, m));
    must(sgb_names(graph, 0, n, begins, n + 1, names, bytes));
    must(sgb_id(graph, id, sizes.id));
    if (with_arcs) {
        printf("  The graph whose official name is\n%s\n", id);
        printf("  has %" PRIu64 " vertices and %" PRIu64 " arcs:\n\n", sizes.vertices, arcs);
    }
    for (size_t v = 0; v < n; v++) {
        printf("%.*s\n", (int)(begins[v + 1] - begins[v]), names + begins[v]);
        for (uint64_t k = starts[v]; with_arcs && k < starts[v + 1]; k++) {
            uint64_t from = begins[tips[k]], to = begins[tips[k] + 1];
            printf("  -> %.*s, length %" PRId64 "\n", (int)(to - from), names + from, lengths[k]);
        }
    }
}

int main(int count, char **words) {
    sgb_graph graph = SGB_NO_GRAPH;
    if (count != 3) return 2;
#ifdef _WIN32
    /* no newline is turned into two bytes */
    _setmode(_fileno(stdout), _O_BINARY);
    _setmode(_fileno(stderr), _O_BINARY);
#endif
    must(sgb_open(words[2], strlen(words[2]), "", 0, &graph));
    if (strcmp(words[1], "save") == 0) {
        save(&graph);
    } else {
        show(&graph, strcmp(words[1], "list") == 0);
    }
    sgb_close(&graph);
    return fflush(stdout) ? 3 : 0;
}
