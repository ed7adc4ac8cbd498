/* What a call touches of its stack: checks/from_outside/c_many.c and c_operations.c take this file in. */
#include <pthread.h>
#include <string.h>
#include <sys/mman.h>

#include "c_calls.h"

/* How many bytes of a stack the body touches, of a thread that has so many. */
static size_t touched_by(void *(*body)(void *), size_t bytes) {
    const size_t guard = 1 << 20;
    unsigned char *low = mmap(NULL, bytes + guard, PROT_NONE, MAP_PRIVATE | MAP_ANONYMOUS, -1, 0);
    pthread_attr_t attributes;
    pthread_t thread;
    if (low == MAP_FAILED || mprotect(low + guard, bytes, PROT_READ | PROT_WRITE) != 0) fail("no stack");
    memset(low + guard, 0x5a, bytes);
    if (pthread_attr_init(&attributes) != 0 || pthread_attr_setstack(&attributes, low + guard, bytes) != 0
        || pthread_create(&thread, &attributes, body, NULL) != 0 || pthread_join(thread, NULL) != 0)
        fail("no thread");
    size_t kept = 0;
    while (kept < bytes && low[guard + kept] == 0x5a) kept++;
    munmap(low, bytes + guard);
    return bytes - kept;
}
