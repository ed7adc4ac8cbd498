/* What the programs stand on under Windows, besides the heap: the words of the command line, standard streams whose bytes are
 * handed on as they are, and errors by their numbers under Linux, which the proved modules know. Nothing here takes memory. */
#include <stddef.h>
#include <stdint.h>
#include <windows.h>

enum { READ_FAULT = 5, NO_SUCH_STREAM = 9, NO_ROOM_LEFT = 28, NO_READER = 32 };

static int error_number;

int rattle_errno(void) {
    return error_number;
}

void rattle_set_errno(int error) {
    error_number = error;
}

/* A pipe that nobody reads is told by write here: there is no signal to ignore. */
int64_t __sysv_signal(int signal, int64_t handler) {
    (void)signal;
    return handler;
}

/* Where the bytes of a word go. What does not fit is not put, and is remembered. */
typedef struct {
    char *at;
    size_t size, used;
    int is_full;
} output;

static void put(output *out, unsigned byte) {
    if (out->used == out->size) {
        out->is_full = 1;
    } else {
        out->at[out->used++] = (char)byte;
    }
}

/* A character as UTF-8. Half of a pair that stands alone becomes three bytes that are no UTF-8. */
static void put_character(output *out, uint32_t character) {
    if (character < 0x80) {
        put(out, character);
        return;
    }
    if (character < 0x800) {
        put(out, 0xc0 | character >> 6);
    } else {
        if (character < 0x10000) {
            put(out, 0xe0 | character >> 12);
        } else {
            put(out, 0xf0 | character >> 18);
            put(out, 0x80 | (character >> 12 & 0x3f));
        }
        put(out, 0x80 | (character >> 6 & 0x3f));
    }
    put(out, 0x80 | (character & 0x3f));
}

static int is_blank(wchar_t unit) {
    return unit == L' ' || unit == L'\t';
}

/* Puts the character at a place; the place behind it. */
static const wchar_t *put_one(output *out, const wchar_t *at) {
    uint32_t first = at[0];
    if (first >= 0xd800 && first < 0xdc00 && at[1] >= 0xdc00 && at[1] < 0xe000) {
        put_character(out, 0x10000 + ((first - 0xd800) << 10) + (at[1] - 0xdc00u));
        return at + 2;
    }
    put_character(out, first);
    return at + 1;
}

/* The first word, the program's own: no backslash stands for itself and a quote there. */
static const wchar_t *put_program(output *out, const wchar_t *at) {
    int is_quoted = 0;
    while (*at && (is_quoted || !is_blank(*at))) {
        if (*at == L'"') {
            is_quoted = !is_quoted;
            at++;
        } else {
            at = put_one(out, at);
        }
    }
    return at;
}

/* Another word, by the rules of Microsoft's C: in front of a quote two backslashes are one, and a last one takes the quote as a
 * character; two quotes inside quotes are one. */
static const wchar_t *put_word(output *out, const wchar_t *at) {
    int is_quoted = 0;
    while (*at && (is_quoted || !is_blank(*at))) {
        size_t slashes = 0;
        while (at[slashes] == L'\\') slashes++;
        at += slashes;
        if (*at != L'"') {
            while (slashes--) put(out, '\\');
            if (*at && (is_quoted || !is_blank(*at))) at = put_one(out, at);
            continue;
        }
        for (size_t pair = 0; pair < slashes / 2; pair++) put(out, '\\');
        if (slashes % 2) {
            put(out, '"');
        } else if (is_quoted && at[1] == L'"') {
            put(out, '"');
            at++;
        } else {
            is_quoted = !is_quoted;
        }
        at++;
    }
    return at;
}

/* Puts a word at the start of buf and answers its length; -1 where there is no such word, -2 where it does not fit, and then
 * buf is full. */
int64_t rattle_arg(size_t word, char *buf, size_t size) {
    output out = {buf, word ? 0 : size, 0, 0};
    const wchar_t *at = put_program(&out, GetCommandLineW());
    for (size_t here = 0; here < word; here++) {
        while (is_blank(*at)) at++;
        if (!*at) return -1;
        out = (output){buf, here + 1 == word ? size : 0, 0, 0};
        at = put_word(&out, at);
    }
    return out.is_full ? -2 : (int64_t)out.used;
}

/* The standard stream of a number, or a handle that serves for nothing. */
static HANDLE stream(int number) {
    static const DWORD names[] = {STD_INPUT_HANDLE, STD_OUTPUT_HANDLE, STD_ERROR_HANDLE};
    HANDLE there = number >= 0 && number < 3 ? GetStdHandle(names[number]) : NULL;
    return there ? there : INVALID_HANDLE_VALUE;
}

/* What one call of the system is handed at most: a pipe or a console may refuse more. */
static DWORD part(uint64_t size) {
    return size < 1 << 20 ? (DWORD)size : 1 << 20;
}

int64_t read(int number, void *at, uint64_t size) {
    DWORD seen = 0;
    if (ReadFile(stream(number), at, part(size), &seen, NULL)) return seen;
    DWORD why = GetLastError();
    /* a pipe whose writer has left is at its end */
    if (why == ERROR_BROKEN_PIPE || why == ERROR_HANDLE_EOF) return 0;
    error_number = why == ERROR_INVALID_HANDLE ? NO_SUCH_STREAM : READ_FAULT;
    return -1;
}

int64_t write(int number, const void *at, uint64_t size) {
    DWORD written = 0;
    if (size == 0) return 0;
    if (WriteFile(stream(number), at, part(size), &written, NULL) && written) return written;
    DWORD why = GetLastError();
    if (why == ERROR_NO_DATA || why == ERROR_BROKEN_PIPE || why == ERROR_PIPE_NOT_CONNECTED) {
        error_number = NO_READER;
    } else {
        error_number = why == ERROR_INVALID_HANDLE ? NO_SUCH_STREAM : NO_ROOM_LEFT;
    }
    return -1;
}

/* What the compilers of MinGW have `main` call first; there is nothing to be made ready. */
void __main(void) {}

int main(void);

/* Where a program begins, in place of what the C library has there: that takes memory before main, and reads the words itself. */
void mainCRTStartup(void) {
    ExitProcess((UINT)main());
}
