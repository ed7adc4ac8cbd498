/* GraphBase's own calls with memory refused (checks/from_outside/graphbase.py): each call of malloc, calloc and realloc in turn.
 * It is linked with --wrap=malloc,--wrap=calloc,--wrap=realloc.
 *
 *     gb_refused FOLDER    files are put into this folder */
#include <limits.h>
#include <stdlib.h>

#include "gb_graph.h"

#include "gb_basic.h"
#include "gb_looked.h"
#include "gb_save.h"

static long left = LONG_MAX; /* how many calls for memory are granted */

void *__real_malloc(size_t size);
void *__real_calloc(size_t count, size_t size);
void *__real_realloc(void *at, size_t size);
void *__wrap_malloc(size_t size) { return left-- > 0 ? __real_malloc(size) : NULL; }
void *__wrap_calloc(size_t count, size_t size) { return left-- > 0 ? __real_calloc(count, size) : NULL; }
void *__wrap_realloc(void *at, size_t size) { return left-- > 0 ? __real_realloc(at, size) : NULL; }

static Graph *operand, *second;

static Graph *a_board(void) { return board(3L, 3L, 0L, 0L, 1L, 0L, 0L); }
static Graph *a_complement(void) { return complement(operand, 0L, 0L, 0L); }
static Graph *a_union(void) { return gunion(operand, second, 0L, 0L); }
static Graph *a_line_graph(void) { return lines(operand, 0L); }
static Graph *an_induced_graph(void) { return induced(operand, NULL, 0L, 0L, 0L); }
static Graph *a_new_graph(void) { return gb_new_graph(3L); }
static Graph *a_restored_graph(void) {
    if (save_graph(operand, path) == 0) return restore_graph(path);
    panic_code = no_room;
    return NULL;
}

/* Each call for memory is refused in turn: the answer is NULL, and why, until there is enough. */
static void refused(void) {
    Graph *(*const calls[])(void) = {a_board, a_complement, a_union, a_line_graph, an_induced_graph, a_new_graph,
                                     a_restored_graph};
    size_t k;
    long granted;
    operand = board(4L, 0L, 0L, 0L, 1L, 0L, 0L);
    second = circuit(4L);
    operand->vertices->ind = IND_GRAPH;
    operand->vertices->subst = second;
    for (k = 0; k < sizeof calls / sizeof *calls; k++)
        for (granted = 0;; granted++) {
            Graph *g;
            panic_code = 0;
            left = granted;
            g = calls[k]();
            left = LONG_MAX;
            if (g) {
                is(granted > 1, "no call for memory was refused", (long)k);
                gb_recycle(g);
                break;
            }
            is(panic_code == no_room || calls[k] == a_new_graph, "a call without memory", panic_code);
            is(gb_trouble_code == 0, "trouble that was told", gb_trouble_code);
        }
    gb_recycle(operand);
    gb_recycle(second);
}

int main(int count, char **words) {
    if (count != 2) return 2;
    snprintf(path, sizeof path, "%s/refused.gb", words[1]);
    refused();
    printf("%ld looked at, %ld wrong\n", looked, wrong);
    return wrong > 0;
}
