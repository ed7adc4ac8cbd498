/* Opens and closes a graph 100,000 times, makes one of its own, and takes its lines: what the heap does, over the library. */
#include <stdio.h>

#include "sgb.h"

enum { TIMES = 100000 };

static int failed(const char *what, uint64_t answer) {
    fprintf(stderr, "many: %s gave %u\n", what, (unsigned)answer);
    return 1;
}

int main(void) {
    static const char text[] = "product(circuit(3),circuit(4),0,0)", names[] = "abc", id[] = "a triangle";
    static const uint64_t starts[] = {0, 1, 2, 3};
    static const uint32_t from[] = {0, 1, 2}, to[] = {1, 2, 0};
    static const int64_t lengths[] = {1, 1, 1};
    uint64_t answer, arcs = 0;
    for (int time = 0; time < TIMES; time++) {
        sgb_graph graph = SGB_NO_GRAPH;
        answer = sgb_open(text, sizeof text - 1, "", 0, &graph);
        if (!answer) answer = sgb_arcs(&graph, &arcs);
        if (answer || arcs != 48) return failed("sgb_open", answer);
        sgb_close(&graph);
    }
    sgb_graph made = SGB_NO_GRAPH, lines = SGB_NO_GRAPH;
    answer = sgb_make(starts, 4, names, 3, from, 3, to, 3, lengths, 3, false, id, sizeof id - 1, &made);
    if (answer) return failed("sgb_make", answer);
    answer = sgb_lines(&made, false, &lines);
    sgb_graph_sizes sizes = {0, 0};
    if (!answer) answer = sgb_sizes(&lines, &sizes);
    if (!answer) answer = sgb_arcs(&lines, &arcs);
    if (answer || sizes.vertices != 3 || arcs != 6) return failed("sgb_lines", answer);
    sgb_close(&lines);
    sgb_close(&made);
    puts("done");
    return 0;
}
