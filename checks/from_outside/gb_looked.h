/* What the callers of GraphBase's own calls count: what was looked at, and what of it was wrong, each with a line. */
#ifndef GB_LOOKED_H
#define GB_LOOKED_H

#include <stdio.h>

static long looked, wrong;

/* the file that is written and read */
static char path[4096];

static void is(int right, const char *what, long k) {
    looked++;
    if (right) return;
    wrong++;
    printf("not right: %s, %ld\n", what, k);
}

#endif
