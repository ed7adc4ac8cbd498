/* The heap of the library and of the programs for a processor that the toolchain has no such object for. */
#include <stdbool.h>
#include <stddef.h>
#include <stdlib.h>

/* Whether there is memory, and where; never null, also where there is none. */
typedef struct {
    bool is_there;
    void *at;
} tried;

static char nothing;

static tried answer(void *at) {
    return (tried){at != NULL, at ? at : &nothing};
}

/* Memory of so many bytes; of 0 bytes, as many as the alignment, which divides 16 and is malloc's own. */
tried rattle_alloc(size_t size, size_t alignment) {
    return answer(malloc(size ? size : alignment));
}

tried rattle_realloc(void *at, size_t kept, size_t size, size_t alignment) {
    (void)kept;
    return answer(realloc(at, size ? size : alignment));
}

void rattle_dealloc(void *at) {
    free(at);
}
