/* What the programs want of C besides the heap, for a processor that the toolchain has no such object for: the words of the
 * command line, and errno. */
#include <errno.h>
#include <stddef.h>

static int count;
static char **words;

/* glibc hands the words to what runs before main. */
__attribute__((constructor)) static void keep(int words_count, char **words_there) {
    count = words_count;
    words = words_there;
}

/* Puts a word at the start of buf and answers its length; -1 where there is no such word, -2 where it does not fit, and then
 * buf is full. */
ptrdiff_t rattle_arg(size_t word, char *buf, size_t size) {
    if (word >= (size_t)count || !words[word]) return -1;
    const char *from = words[word];
    for (size_t at = 0; from[at]; at++) {
        if (at == size) return -2;
        buf[at] = from[at];
        if (!from[at + 1]) return (ptrdiff_t)(at + 1);
    }
    return 0;
}

int rattle_errno(void) {
    return errno;
}

void rattle_set_errno(int error) {
    errno = error;
}
