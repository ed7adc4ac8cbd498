/* A C program on the library for C that makes many calls, for checks/from_outside/c_many.py.
 *
 *     c_many runs FILE        each line of the file is `FIRST COUNT INPUT EXPR`, where INPUT is a file or `-`: the
 *                             answer of sgb_open where there is no graph; else the listing of the run, and the file
 *     c_many leaks N FILE     N openings and closings of each kind, where FILE is a `.gb` file: the process is as large
 *                             as before
 *     c_many stack KB OPEN EXPR         each call in a thread of KB kilobytes, sgb_open in one of OPEN: how many bytes of
 *                             its stack it touches, a line each
 *     c_many threads N EXPR.. N threads, each with graphs of its own and one that they share under a lock
 *     c_many great EXPR       opens the graph: seconds of a processor, the arcs on its lists, kilobytes held at most
 *
 * Standard input is the input of the expressions of `stack`, `threads` and `great`. What is not as it must be ends it
 * with status 4 and a line. */
#define _GNU_SOURCE
#include <pthread.h>
#include <sys/resource.h>
#include <time.h>

#include "c_calls.h"
#include "c_pages.h"
#include "c_stacks.h"
#include "c_states.h"

/* The run of the graph that is open, told as the program tells it, with the names of all vertices; and the file. */
static void put_run(uint32_t from, uint32_t so_many) {
    begin_run(0, vertices());
    fill_run();
    must_call(&graph, ID);
    must(sgb_arcs(&graph, &size.arcs), SGB_OK, "sgb_arcs");
    printf("  The graph whose official name is\n%.*s\n  has %" PRIu32 " vertices and %" PRIu64 " arcs:\n\n", (int)size.sizes.id, id,
           vertices(), size.arcs);
    uint64_t *all = name_starts;
    char *bytes = names;
    name_starts = NULL;
    names = NULL;
    free_arrays();
    begin_run(from, so_many);
    fill_run();
    for (uint32_t k = 0; k < count; k++) {
        put_name(k);
        putchar('\n');
        for (uint64_t j = starts[k]; j < starts[k + 1]; j++)
            printf("  -> %.*s, length %" PRId64 "\n", (int)(all[tips[j] + 1] - all[tips[j]]), bytes + all[tips[j]], lengths[j]);
    }
    free_arrays();
    free(all);
    free(bytes);
    must(sgb_file_size(&graph, &size.file), SGB_OK, "sgb_file_size");
    make_arrays();
    must_call(&graph, WHOLE_FILE);
    ends_are_kept();
    puts("--");
    fwrite(file, 1, size.file, stdout);
    free_arrays();
}

static int runs(const char *path) {
    size_t len;
    char *lines = file_at(path, &len);
    lines[len] = '\0';
    for (char *line = strtok(lines, "\n"); line; line = strtok(NULL, "\n")) {
        unsigned from, so_many;
        int at;
        static char place[4096];
        if (sscanf(line, "%u %u %4095s %n", &from, &so_many, place, &at) != 3) fail("usage");
        set_text(line + at);
        input_len = 0;
        input = strcmp(place, "-") == 0 ? strdup("") : file_at(place, &input_len);
        uint64_t answer = open_text(&graph);
        if (answer == SGB_OK) {
            sgb_close(&graph);
            open_graph();
            put_run(from, so_many);
            sgb_close(&graph);
        } else {
            printf("refused %" PRIu64 "\n", answer);
        }
        puts("==");
        free(input);
    }
    free(lines);
    return 0;
}

/* Opens and closes the graph, with calls on its first vertices in between. */
static uint64_t opened_and_closed(void) {
    static uint64_t places[4];
    static uint32_t ends[64];
    static int64_t wide[64];
    static char bytes[512];
    static unsigned rounds;
    sgb_graph_sizes there;
    uint64_t answer = open_text(&graph), arcs, len;
    if (answer == SGB_OK) {
        must(sgb_sizes(&graph, &there), SGB_OK, "sgb_sizes");
        must(sgb_rows_size(&graph, 0, 2, &arcs), SGB_OK, "sgb_rows_size");
        must(sgb_names_size(&graph, 0, 2, &len), SGB_OK, "sgb_names_size");
        must(sgb_rows(&graph, 0, 2, places, 3, ends, arcs, wide, arcs), SGB_OK, "sgb_rows");
        must(sgb_tips(&graph, 0, 2, places, 3, ends, arcs), SGB_OK, "sgb_tips");
        must(sgb_tips(&graph, 0, 2, places, 3, ends, arcs + 1), SGB_WRONG_LENGTH, "sgb_tips");
        must(sgb_names(&graph, 0, 2, places, 3, bytes, len), SGB_OK, "sgb_names");
        sgb_ints(&graph, 3, 0, 2, wide, 2);
        /* the file now and then: a generator's graph is built for it */
        if (++rounds % 16 == 0 && there.vertices < 100) must(sgb_file_size(&graph, &len), SGB_OK, "sgb_file_size");
    }
    sgb_close(&graph);
    return answer;
}

static void leaks_of(const char *now, const char *bytes, size_t len, uint64_t wanted, long rounds) {
    long all, there;
    set_text(now);
    input = (char *)bytes;
    input_len = len;
    for (long round = -rounds / 50; round < rounds; round++) {
        if (round == 0) pages(&all, &there);
        must(opened_and_closed(), wanted, "sgb_open");
    }
    no_larger(now, all, there);
}

static int leaks(long rounds, const char *path) {
    static char large[65537];
    size_t len;
    char *bytes = file_at(path, &len), *broken = malloc(len + 1);
    memset(large, 'x', sizeof large - 1);
    memcpy(broken, bytes, len);
    /* its last record is wrong */
    char *record = broken + len;
    while (record > broken && *record != 'V') record--;
    *record = 'W';
    leaks_of("petersen()", "", 0, SGB_OK, rounds);
    leaks_of("simplex(3,-2,0,0,0,0,0)", "", 0, SGB_OK, rounds);
    leaks_of("board(1000000000,0,0,0,1,0,0)", "", 0, SGB_OK, rounds);
    leaks_of("complement(petersen(),0,0,0)", "", 0, SGB_OK, rounds);
    leaks_of("induced(circuit(4),[-1,1,-1,circuit(3)],0,0,0)", "", 0, SGB_OK, rounds);
    leaks_of("stdin", bytes, len, SGB_OK, rounds);
    leaks_of("gunion(stdin,stdin,1,1)", bytes, len, SGB_OK, rounds);
    leaks_of("gunion(petersen(),stdin,1,1)", bytes, len / 2, SGB_SYNTAX_ERROR, rounds);
    leaks_of("stdin", broken, len, SGB_SYNTAX_ERROR, rounds);
    leaks_of("stdin", bytes, 20, SGB_EARLY_DATA_FAULT, rounds);
    leaks_of("stdin", bytes, len - 10, SGB_LATE_DATA_FAULT, rounds);
    leaks_of("gunion(petersen(),petersen(),1,1", "", 0, SGB_BAD_EXPRESSION + 32, rounds);
    leaks_of("gunion(petersen(),board(2,-251,0,0,1,0,0),1,1)", "", 0, SGB_BAD_SPECS, rounds);
    leaks_of(large, "", 0, SGB_BAD_EXPRESSION, rounds);
    free(bytes);
    free(broken);
    puts("right");
    return 0;
}

/* The call that a thread makes, on the graph and the arrays of the one that waits for it: -2 is none, -1 sgb_open. */
static int which_call;
static sgb_graph *of_main;
static uint64_t lens_of[3], answer_of;
static struct {
    const char *text;
    size_t text_len;
    const char *input;
    size_t input_len;
    uint32_t first, count;
    uint64_t *starts, *places;
    uint32_t *ends;
    int64_t *wide;
    char *bytes;
    numbers told;
} lent;

static void *in_thread(void *none) {
    static const uint64_t name_places[] = {0, 1, 1, 3};
    uint64_t *lens = lens_of;
    switch (which_call) {
    case -2: break;
    case -1: answer_of = sgb_open(lent.text, lent.text_len, lent.input, lent.input_len, of_main); break;
    case SIZES: answer_of = sgb_sizes(of_main, &lent.told.sizes); break;
    case ARCS: answer_of = sgb_arcs(of_main, &lent.told.arcs); break;
    case ROWS_SIZE: answer_of = sgb_rows_size(of_main, lent.first, lent.count, &lent.told.listed); break;
    case NAMES_SIZE: answer_of = sgb_names_size(of_main, lent.first, lent.count, &lent.told.names); break;
    case ROWS: answer_of = sgb_rows(of_main, lent.first, lent.count, lent.starts, lens[0], lent.ends, lens[1], lent.wide, lens[2]); break;
    case TIPS: answer_of = sgb_tips(of_main, lent.first, lent.count, lent.starts, lens[0], lent.ends, lens[1]); break;
    case NAMES: answer_of = sgb_names(of_main, lent.first, lent.count, lent.starts, lens[0], lent.bytes, lens[1]); break;
    case INTS: answer_of = sgb_ints(of_main, 3, lent.first, lent.count, lent.wide, lens[0]); break;
    case ID: answer_of = sgb_id(of_main, lent.bytes, lens[0]); break;
    case KINDS: answer_of = sgb_kinds(of_main, lent.bytes, lens[0]); break;
    case CALLS + 1: answer_of = sgb_uniform_draws(7, 1000000007, 6, lent.ends, lens[1]); break;
    case CALLS + 2: answer_of = sgb_name_lines(name_places, 4, "abc", 3, lent.bytes, 6); break;
    case FILE_SIZE: answer_of = sgb_file_size(of_main, &lent.told.file); break;
    case WHOLE_FILE: answer_of = sgb_file(of_main, lent.bytes, lens[0]); break;
    default: sgb_close(of_main); break;
    }
    return none;
}

static size_t touched(int which, size_t bytes) {
    which_call = which;
    return touched_by(in_thread, bytes);
}

static int stack(size_t bytes, size_t of_open, const char *now) {
    set_text(now);
    open_graph();
    must(sgb_file_size(&graph, &size.file), SGB_OK, "sgb_file_size");
    begin_run(0, vertices());
    size_t width = size.file > size.names ? size.file : size.names;
    of_main = &graph;
    lent.text = text, lent.text_len = text_len, lent.input = input, lent.input_len = input_len;
    lent.first = first, lent.count = count, lent.starts = starts, lent.ends = tips;
    lent.wide = array(size.listed > count ? size.listed : count, 8);
    lent.bytes = array(width + 160, 1);
    sgb_close(&graph);
    size_t least = touched(-2, bytes);
    printf("sgb_open %zu\n", touched(-1, of_open) - least);
    must(answer_of, SGB_OK, "sgb_open in a thread");
    for (int which = 0; which < CALLS; which++) {
        for (int k = 0; k < 3; k++) lens_of[k] = places(which, k);
        printf("%s %zu\n", call_names[which], touched(which, bytes) - least);
        if (which != INTS) must(answer_of, SGB_OK, call_names[which]);
    }
    lens_of[1] = size.listed;
    printf("sgb_uniform_draws %zu\n", touched(CALLS + 1, bytes) - least);
    printf("sgb_name_lines %zu\n", touched(CALLS + 2, bytes) - least);
    must(answer_of, SGB_OK, "sgb_name_lines in a thread");
    printf("sgb_close %zu\n", touched(CALLS, bytes) - least);
    if (graph.is_open) fail("a graph that was closed is open");
    free(lent.wide);
    free(lent.bytes);
    free_arrays();
    return 0;
}

/* What threads share: graphs with the state that all calls leave, and one graph under a lock. */
static char **expressions;
static int expression_count;
static uint64_t states[64];
static pthread_mutex_t lock = PTHREAD_MUTEX_INITIALIZER;
static sgb_graph shared = SGB_NO_GRAPH;
static const char *shared_input;
static size_t shared_input_len;

static void *many_graphs(void *none) {
    input = (char *)shared_input;
    input_len = shared_input_len;
    for (int round = 0; round < 4; round++)
        for (int k = 0; k < expression_count; k++) {
            set_text(expressions[k]);
            must(open_text(&graph), SGB_OK, "sgb_open in a thread");
            sizes_of(&graph);
            if (state_of(&graph) != states[k]) fail("other arrays in a thread");
            sgb_close(&graph);
            pthread_mutex_lock(&lock);
            sizes_of(&shared);
            uint64_t now = state_of(&shared);
            pthread_mutex_unlock(&lock);
            if (now != states[0]) fail("other arrays of a graph that is shared");
        }
    return none;
}

static int threads(int so_many, char **texts, int texts_len) {
    pthread_t all[16];
    if (so_many > 16 || texts_len > 64) fail("usage");
    expressions = texts;
    expression_count = texts_len;
    shared_input = input;
    shared_input_len = input_len;
    for (int k = 0; k < texts_len; k++) {
        set_text(texts[k]);
        must(open_text(&graph), SGB_OK, "sgb_open");
        sizes_of(&graph);
        states[k] = state_of(&graph);
        sgb_close(&graph);
    }
    set_text(texts[0]);
    must(open_text(&shared), SGB_OK, "sgb_open");
    for (int k = 0; k < so_many; k++)
        if (pthread_create(&all[k], NULL, many_graphs, NULL) != 0) fail("no thread");
    for (int k = 0; k < so_many; k++) pthread_join(all[k], NULL);
    sgb_close(&shared);
    puts("right");
    return 0;
}

static int great(const char *now) {
    struct rusage usage;
    set_text(now);
    clock_t then = clock();
    open_graph();
    must(sgb_rows_size(&graph, 0, vertices(), &size.listed), SGB_OK, "sgb_rows_size");
    then = clock() - then;
    getrusage(RUSAGE_SELF, &usage);
    printf("%.3f %" PRIu64 " %ld\n", (double)then / CLOCKS_PER_SEC, size.listed, usage.ru_maxrss);
    sgb_close(&graph);
    return 0;
}

int main(int words_len, char **words) {
    if (words_len == 3 && strcmp(words[1], "runs") == 0) return runs(words[2]);
    if (words_len == 4 && strcmp(words[1], "leaks") == 0) return leaks(strtol(words[2], NULL, 10), words[3]);
    if (words_len < 3) fail("usage");
    input = whole(stdin, &input_len);
    int status = 2;
    if (words_len == 5 && strcmp(words[1], "stack") == 0)
        status = stack(strtoul(words[2], NULL, 10) << 10, strtoul(words[3], NULL, 10) << 10, words[4]);
    if (words_len >= 4 && strcmp(words[1], "threads") == 0) status = threads(atoi(words[2]), words + 3, words_len - 3);
    if (words_len == 3 && strcmp(words[1], "great") == 0) status = great(words[2]);
    free(input);
    return status;
}
