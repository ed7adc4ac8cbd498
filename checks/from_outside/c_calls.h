/* What the checks of the library for C share: a graph, a run of its vertices, and each call on them with the arrays
 * that it fills. checks/from_outside/c_arrays.c and checks/from_outside/c_many.c take this file in. */
#ifndef C_CALLS_H
#define C_CALLS_H
#include <inttypes.h>
#include <stdio.h>
#include <stdlib.h>
#include <string.h>

#include "sgb.h"

/* Calls on a handle. */
enum { SIZES, ARCS, ROWS_SIZE, NAMES_SIZE, ROWS, TIPS, NAMES, INTS, ID, KINDS, FILE_SIZE, WHOLE_FILE, CALLS };
static const char *const call_names[] = {"sgb_sizes", "sgb_arcs",  "sgb_rows_size", "sgb_names_size", "sgb_rows",      "sgb_tips",
                                         "sgb_names", "sgb_ints",  "sgb_id",        "sgb_kinds",      "sgb_file_size", "sgb_file"};

/* Whether a call is one of a run, and how many arrays it fills. */
static const int is_of_run[CALLS] = {[ROWS_SIZE] = 1, [NAMES_SIZE] = 1, [ROWS] = 1, [TIPS] = 1, [NAMES] = 1, [INTS] = 1};
static const int array_counts[CALLS] = {[ROWS] = 3, [TIPS] = 2, [NAMES] = 2, [INTS] = 1, [ID] = 1, [KINDS] = 1, [WHOLE_FILE] = 1};

/* The numbers that calls write. */
typedef struct {
    sgb_graph_sizes sizes;
    uint64_t arcs, listed, names, file;
} numbers;

/* All of it is a thread's own. */
#define OWN static _Thread_local

OWN const char *text = "";
OWN size_t text_len;
OWN char *input = "";
OWN size_t input_len;
OWN sgb_graph graph = SGB_NO_GRAPH;

/* The run, the field, the numbers as they are for it, and those that calls write. */
OWN uint32_t first, count, field = 3;
OWN numbers size, told;

/* The arrays that calls fill: one place more than they may have at each end of what is looked at, and that is not
 * written. */
OWN uint64_t *starts, *tip_starts, *name_starts;
OWN uint32_t *tips, *plain_tips;
OWN int64_t *lengths, *values;
OWN char *names, *id, *kinds, *file;

static void fail(const char *what) {
    fprintf(stderr, "c_calls: %.60s: %s\n", text, what);
    exit(4);
}

static void must(uint64_t answer, uint64_t wanted, const char *what) {
    if (answer == wanted) return;
    fprintf(stderr, "c_calls: %.60s: %s answers %" PRIu64 " and not %" PRIu64 "\n", text, what, answer, wanted);
    exit(4);
}

static void *array(uint64_t places, size_t width) {
    void *at = malloc((places + 2) * width);
    if (!at) fail("out of memory");
    memset(at, 0x5a, (places + 2) * width);
    return at;
}

static int is_untouched(const void *at, uint64_t bytes) {
    const unsigned char *byte = at;
    for (uint64_t k = 0; k < bytes; k++)
        if (byte[k] != 0x5a) return 0;
    return 1;
}

static void set_text(const char *now) {
    text = now;
    text_len = strlen(now);
}

static char *whole(FILE *from, size_t *len) {
    size_t room = 1 << 16;
    char *bytes = malloc(room);
    *len = 0;
    for (size_t got; bytes && (got = fread(bytes + *len, 1, room - *len, from)) > 0;) {
        *len += got;
        if (*len == room) bytes = realloc(bytes, room *= 2);
    }
    if (!bytes) fail("out of memory");
    return bytes;
}

static inline char *file_at(const char *path, size_t *len) {
    FILE *from = fopen(path, "rb");
    if (!from) fail(path);
    char *bytes = whole(from, len);
    fclose(from);
    return bytes;
}

/* New arrays for the run, and no numbers. */
static void make_arrays(void) {
    starts = array(count + 1ull, sizeof *starts);
    tip_starts = array(count + 1ull, sizeof *tip_starts);
    name_starts = array(count + 1ull, sizeof *name_starts);
    tips = array(size.listed, sizeof *tips);
    plain_tips = array(size.listed, sizeof *plain_tips);
    lengths = array(size.listed, sizeof *lengths);
    values = array(count, sizeof *values);
    names = array(size.names, 1);
    id = array(size.sizes.id, 1);
    kinds = array(14, 1);
    file = array(size.file, 1);
    memset(&told, 0x5a, sizeof told);
}

static void free_arrays(void) {
    void *all[] = {starts, tip_starts, name_starts, tips, plain_tips, lengths, values, names, id, kinds, file};
    for (size_t k = 0; k < sizeof all / sizeof *all; k++) free(all[k]);
}

/* How many places array number k of a call has. */
static uint64_t places(int which, int k) {
    switch (which) {
    case ROWS:
    case TIPS: return k == 0 ? count + 1ull : size.listed;
    case NAMES: return k == 0 ? count + 1ull : size.names;
    case INTS: return count;
    case ID: return size.sizes.id;
    case KINDS: return 14;
    default: return size.file;
    }
}

/* A call, whose array number k is said to have lens[k] places. */
static uint64_t call_with(sgb_graph *at, int which, const uint64_t *lens) {
    switch (which) {
    case SIZES: return sgb_sizes(at, &told.sizes);
    case ARCS: return sgb_arcs(at, &told.arcs);
    case ROWS_SIZE: return sgb_rows_size(at, first, count, &told.listed);
    case NAMES_SIZE: return sgb_names_size(at, first, count, &told.names);
    case ROWS: return sgb_rows(at, first, count, starts, lens[0], tips, lens[1], lengths, lens[2]);
    case TIPS: return sgb_tips(at, first, count, tip_starts, lens[0], plain_tips, lens[1]);
    case NAMES: return sgb_names(at, first, count, name_starts, lens[0], names, lens[1]);
    case INTS: return sgb_ints(at, field, first, count, values, lens[0]);
    case ID: return sgb_id(at, id, lens[0]);
    case KINDS: return sgb_kinds(at, kinds, lens[0]);
    case FILE_SIZE: return sgb_file_size(at, &told.file);
    default: return sgb_file(at, file, lens[0]);
    }
}

/* A call whose array number `other` is said to have so many places more than it must, and all others as many. */
static uint64_t call_by(sgb_graph *at, int which, int other, int by) {
    uint64_t lens[3];
    for (int k = 0; k < 3; k++) lens[k] = places(which, k) + (k == other ? (uint64_t)(int64_t)by : 0);
    return call_with(at, which, lens);
}

static uint64_t call(sgb_graph *at, int which) { return call_by(at, which, 0, 0); }

static void must_call(sgb_graph *at, int which) { must(call(at, which), SGB_OK, call_names[which]); }

static uint64_t mixed(uint64_t sum, const void *at, uint64_t bytes) {
    const unsigned char *byte = at;
    for (uint64_t k = 0; k < bytes; k++) sum = (sum ^ byte[k]) * 0x100000001b3u;
    return sum;
}

/* All that calls may write, as one number. */
static uint64_t state(void) {
    uint64_t sum = mixed(0xcbf29ce484222325u, &told, sizeof told);
    const uint64_t all = count + 3ull;
    sum = mixed(mixed(mixed(sum, starts, all * 8), tip_starts, all * 8), name_starts, all * 8);
    sum = mixed(mixed(sum, tips, (size.listed + 2) * 4), plain_tips, (size.listed + 2) * 4);
    sum = mixed(mixed(sum, lengths, (size.listed + 2) * 8), values, (count + 2ull) * 8);
    sum = mixed(mixed(sum, names, size.names + 2), id, size.sizes.id + 2);
    return mixed(mixed(sum, kinds, 16), file, size.file + 2);
}

/* Nothing is written past an end. */
static void ends_are_kept(void) {
    if (!is_untouched(starts + count + 1, 8) || !is_untouched(tip_starts + count + 1, 8) || !is_untouched(name_starts + count + 1, 8)
        || !is_untouched(tips + size.listed, 8) || !is_untouched(plain_tips + size.listed, 8)
        || !is_untouched(lengths + size.listed, 16) || !is_untouched(values + count, 16) || !is_untouched(names + size.names, 2)
        || !is_untouched(id + size.sizes.id, 2) || !is_untouched(kinds + 14, 2) || !is_untouched(file + size.file, 2))
        fail("written past an end");
}

static uint64_t open_text(sgb_graph *at) { return sgb_open(text, text_len, input, input_len, at); }

/* Opens the graph; its size, without that of its file. */
static inline void open_graph(void) {
    must(open_text(&graph), SGB_OK, "sgb_open");
    memset(&size, 0, sizeof size);
    must(sgb_sizes(&graph, &size.sizes), SGB_OK, "sgb_sizes");
}

static uint32_t vertices(void) { return (uint32_t)size.sizes.vertices; }

/* The run from vertex `from` on, with its arrays, which are not filled. */
static void begin_run(uint32_t from, uint32_t so_many) {
    first = from;
    count = so_many;
    must(sgb_rows_size(&graph, first, count, &size.listed), SGB_OK, "sgb_rows_size");
    must(sgb_names_size(&graph, first, count, &size.names), SGB_OK, "sgb_names_size");
    make_arrays();
}

/* Fills the arrays of lists and names; those without lengths are the same. */
static void fill_run(void) {
    must_call(&graph, ROWS);
    must_call(&graph, TIPS);
    must_call(&graph, NAMES);
    if (memcmp(starts, tip_starts, (count + 1ull) * 8) != 0 || memcmp(tips, plain_tips, size.listed * 4) != 0)
        fail("other lists without lengths");
    if (starts[0] != 0 || starts[count] != size.listed || name_starts[0] != 0 || name_starts[count] != size.names)
        fail("starts are not from 0 to the end");
    ends_are_kept();
}

static void put_name(uint32_t k) { fwrite(names + name_starts[k], 1, name_starts[k + 1] - name_starts[k], stdout); }

/* The listing of the graph whose vertices all are the run, as the program writes it. */
static inline void put_listing(void) {
    printf("  The graph whose official name is\n%.*s\n  has %" PRIu32 " vertices and %" PRIu64 " arcs:\n\n", (int)size.sizes.id, id,
           vertices(), size.arcs);
    for (uint32_t v = 0; v < count; v++) {
        put_name(v);
        putchar('\n');
        for (uint64_t k = starts[v]; k < starts[v + 1]; k++) {
            fputs("  -> ", stdout);
            put_name(tips[k]);
            printf(", length %" PRId64 "\n", lengths[k]);
        }
    }
}
#endif
