/* What graphs cost a caller in C, for bench/table.py: opens the graph of an expression, and hands its arrays over.
 *
 *     hand_over open EXPR      opens the graph and closes it
 *     hand_over rows EXPR      and hands its lists over in between
 *     hand_over all EXPR       and its names, id and integers
 *     hand_over chunk EXPR FIRST COUNT     the lists and names of so many vertices
 *
 * It prints how many bytes the arrays have. */
#include <stdio.h>
#include <stdlib.h>
#include <string.h>

#include "sgb.h"

static size_t handed;

static void *array(size_t count, size_t size) {
    void *at = malloc((count + 1) * size);
    if (!at) exit(3);
    handed += count * size;
    return at;
}

static void must(uint64_t answer) {
    if (answer == SGB_OK) return;
    fprintf(stderr, "hand_over: answer %lu\n", (unsigned long)answer);
    exit(1);
}

static void rows(sgb_graph *graph, uint32_t first, uint32_t count) {
    uint64_t listed;
    size_t starts = (size_t)count + 1;
    must(sgb_rows_size(graph, first, count, &listed));
    must(sgb_rows(graph, first, count, array(starts, 8), starts, array(listed, 4), listed, array(listed, 8), listed));
}

static void names(sgb_graph *graph, uint32_t first, uint32_t count) {
    uint64_t bytes;
    size_t starts = (size_t)count + 1;
    must(sgb_names_size(graph, first, count, &bytes));
    must(sgb_names(graph, first, count, array(starts, 8), starts, array(bytes, 1), bytes));
}

static void id_and_ints(sgb_graph *graph, sgb_graph_sizes sizes) {
    uint32_t n = sizes.vertices;
    must(sgb_id(graph, array(sizes.id, 1), sizes.id));
    for (uint32_t field = 0; field < 6; field++) {
        int64_t *values = array(n, 8);
        uint64_t answer = sgb_ints(graph, field, 0, n, values, n);
        if (answer == SGB_NO_INTEGERS) {
            handed -= n * 8ull;
            free(values);
        } else {
            must(answer);
        }
    }
}

int main(int count, char **words) {
    sgb_graph graph = SGB_NO_GRAPH;
    sgb_graph_sizes sizes;
    if (count != 3 && count != 5) return 2;
    must(sgb_open(words[2], strlen(words[2]), "", 0, &graph));
    must(sgb_sizes(&graph, &sizes));
    if (count == 5) {
        uint32_t first = strtoul(words[3], NULL, 10), so_many = strtoul(words[4], NULL, 10);
        rows(&graph, first, so_many);
        names(&graph, first, so_many);
    } else if (strcmp(words[1], "open") != 0) {
        rows(&graph, 0, sizes.vertices);
        if (strcmp(words[1], "all") == 0) {
            names(&graph, 0, sizes.vertices);
            id_and_ints(&graph, sizes);
        }
    }
    sgb_close(&graph);
    printf("%zu\n", handed);
}
