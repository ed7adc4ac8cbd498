/* A library that checks/outside.py preloads into the program. It refuses memory, and it is a standard input that fails or
   gives few bytes at a time. What it does, and what it tells, is in the file OUTSIDE, whose first page is `page`; it
   does nothing in another executable than the one named there.

       cc -O2 -shared -fPIC -o outside.so checks/from_outside/preloaded.c
*/
#define _GNU_SOURCE
#include <errno.h>
#include <fcntl.h>
#include <limits.h>
#include <stdlib.h>
#include <string.h>
#include <sys/mman.h>
#include <sys/syscall.h>
#include <unistd.h>

struct page {
    /* orders: the calls for memory from `first` to `last`, counted from 1, answer NULL; reading standard input fails
       after `readable` bytes, and gives at most `step` of them at once */
    unsigned long first, last, readable, step;
    /* what happened: calls for memory, those refused, the most bytes that one asked for; calls of write for standard
       output and standard error, and those after one of them failed */
    unsigned long calls, refused, most, outputs, errors, late;
    char executable[2048];
};

extern char **environ;
static struct page *page;
static int is_ready, has_failed;

static struct page *orders(void) {
    if (is_ready || !environ) return page;
    is_ready = 1;
    const char *path = getenv("OUTSIDE");
    int file = path ? open(path, O_RDWR | O_CLOEXEC) : -1;
    if (file < 0) return NULL;
    struct page *found = mmap(NULL, sizeof(struct page), PROT_READ | PROT_WRITE, MAP_SHARED, file, 0);
    close(file);
    if (found == MAP_FAILED) return NULL;
    char own[2048] = "";
    if (readlink("/proc/self/exe", own, sizeof own - 1) < 0 || strcmp(own, found->executable) != 0) return NULL;
    return page = found;
}

static int is_refused(size_t size) {
    struct page *p = orders();
    if (!p) return 0;
    p->calls++;
    if (size > p->most) p->most = size;
    if (p->calls < p->first || p->calls > p->last) return 0;
    p->refused++;
    errno = ENOMEM;
    return 1;
}

extern void *__libc_malloc(size_t);
extern void *__libc_calloc(size_t, size_t);
extern void *__libc_realloc(void *, size_t);
extern void *__libc_memalign(size_t, size_t);

void *malloc(size_t size) { return is_refused(size) ? NULL : __libc_malloc(size); }
void *calloc(size_t n, size_t size) { return is_refused(n * size) ? NULL : __libc_calloc(n, size); }
void *realloc(void *old, size_t size) { return is_refused(size) ? NULL : __libc_realloc(old, size); }
void *memalign(size_t to, size_t size) { return is_refused(size) ? NULL : __libc_memalign(to, size); }
void *aligned_alloc(size_t to, size_t size) { return is_refused(size) ? NULL : __libc_memalign(to, size); }

int posix_memalign(void **place, size_t to, size_t size) {
    void *p = is_refused(size) ? NULL : __libc_memalign(to, size);
    if (!p) return ENOMEM;
    *place = p;
    return 0;
}

ssize_t read(int from, void *to, size_t size) {
    struct page *p = from == 0 ? orders() : NULL;
    if (p) {
        if (p->readable == 0 && size > 0) {
            errno = EIO;
            return -1;
        }
        if (size > p->step) size = p->step;
        if (size > p->readable) size = p->readable;
    }
    ssize_t got = syscall(SYS_read, from, to, size);
    if (p && got > 0 && p->readable != ULONG_MAX) p->readable -= got;
    return got;
}

ssize_t write(int to, const void *from, size_t size) {
    struct page *p = to == 1 || to == 2 ? orders() : NULL;
    ssize_t put = syscall(SYS_write, to, from, size);
    if (p && to == 2) p->errors++;
    if (p && to == 1) {
        p->outputs++;
        if (has_failed) p->late++;
        if (put < 0 && errno != EINTR) has_failed = 1;
    }
    return put;
}
