/* The state of a graph that is open: all that calls tell of it, as one number. checks/from_outside/c_many.c and c_operations.c take
 * this file in. */
#include "c_calls.h"

static void sizes_of(sgb_graph *at) {
    memset(&size, 0, sizeof size);
    must(sgb_sizes(at, &size.sizes), SGB_OK, "sgb_sizes");
    first = 0;
    count = vertices();
    must(sgb_rows_size(at, 0, count, &size.listed), SGB_OK, "sgb_rows_size");
    must(sgb_names_size(at, 0, count, &size.names), SGB_OK, "sgb_names_size");
    must(sgb_file_size(at, &size.file), SGB_OK, "sgb_file_size");
}

static uint64_t state_of(sgb_graph *at) {
    make_arrays();
    for (int which = 0; which < CALLS; which++) call(at, which);
    uint64_t now = state();
    free_arrays();
    return now;
}
