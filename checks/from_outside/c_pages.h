/* How large the process is: checks/from_outside/c_many.c and c_operations.c take this file in. */
#include "c_calls.h"

/* Pages of the process: all, and those in memory. */
static void pages(long *all, long *there) {
    FILE *from = fopen("/proc/self/statm", "r");
    if (!from || fscanf(from, "%ld %ld", all, there) != 2) fail("no /proc/self/statm");
    fclose(from);
}

/* It is no larger than it was when it had so many pages, or the line says so, and all ends. */
static void no_larger(const char *what, long all, long there) {
    long all_then, there_then;
    pages(&all_then, &there_then);
    if (all_then <= all && there_then <= there + 256) return;
    fprintf(stderr, "%.80s: %ld pages and not %ld, of them in memory %ld and not %ld\n", what, all_then, all, there_then, there);
    exit(4);
}
