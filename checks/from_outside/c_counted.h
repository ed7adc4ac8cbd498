/* Calls for memory, counted and refused: checks/from_outside/c_refusals.h and c_operations.c take this file in. malloc, realloc and
 * free are wrapped where COUNTED is defined (cc -Wl,--wrap=malloc,--wrap=realloc,--wrap=free). */
#include <stddef.h>

/* The calls for memory while it is counted, which of them are refused, and the blocks that are held of it. */
static size_t asked, refused_first, refused_last, held;
static int counting;

#ifdef COUNTED
void *__real_malloc(size_t bytes);
void *__real_realloc(void *at, size_t bytes);
void __real_free(void *at);
void *__wrap_malloc(size_t bytes);
void *__wrap_realloc(void *at, size_t bytes);
void __wrap_free(void *at);

static int is_refused(void) { return counting && ++asked >= refused_first && asked <= refused_last; }

void *__wrap_malloc(size_t bytes) {
    if (is_refused()) return NULL;
    void *at = __real_malloc(bytes);
    if (counting && at) held++;
    return at;
}

void *__wrap_realloc(void *at, size_t bytes) {
    if (is_refused()) return NULL;
    void *now = __real_realloc(at, bytes);
    if (counting && now && !at) held++;
    return now;
}

void __wrap_free(void *at) {
    if (counting && at) held--;
    __real_free(at);
}
#endif

/* From here on calls for memory are counted, and those of these numbers are refused: the first is 1. */
static void count_from(size_t from, size_t to) {
    asked = held = 0;
    refused_first = from;
    refused_last = to;
    counting = 1;
}
