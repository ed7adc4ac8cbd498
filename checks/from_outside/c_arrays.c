/* A C program on the library for C, with which checks/from_outside/c_library.py compares what the program `sgb` writes.
 *
 *     c_arrays list EXPR       the listing, put together from the arrays
 *     c_arrays names EXPR      the names, one a line
 *     c_arrays ints EXPR       for each utility field of the vertices its number, the answer, its integers, on a line
 *     c_arrays save EXPR       the file
 *     c_arrays kinds EXPR      the letters of the kinds, on a line
 *     c_arrays answer EXPR     the answer of sgb_open, and of the calls on this handle with empty arrays
 *     c_arrays wrong EXPR      each array one too short and one too long: SGB_WRONG_LENGTH, and nothing is written
 *     c_arrays handles EXPR    handles that are open, opened again, closed, closed twice, and two at once
 *     c_arrays refuse EXPR     each allocation refused in turn: SGB_NO_ROOM, and nothing is opened, written or held
 *     c_arrays refuse_built EXPR     so too, and the calls on the graph take no memory
 *     c_arrays draws START SKIP COUNT M     draws, one a line: uniform ones below M where that is not 0
 *     c_arrays chunks EXPR SIZE          the blocks of all vertices, put together from runs of so many
 *     c_arrays chunk EXPR FIRST COUNT    those of one run
 *     c_arrays chunk_wrong EXPR          runs that are not there, and those of no vertices
 *
 * Standard input is the input of the expression. What is not as it must be ends it with status 4 and a line. With
 * COUNTED defined, malloc, realloc and free are wrapped (cc -Wl,--wrap=malloc,--wrap=realloc,--wrap=free). */
#include "c_calls.h"
#include "c_chunks.h"
#include "c_refusals.h"

/* The graph with all its sizes, and the run of all its vertices. */
static void begin_whole(void) {
    open_graph();
    must(sgb_arcs(&graph, &size.arcs), SGB_OK, "sgb_arcs");
    must(sgb_file_size(&graph, &size.file), SGB_OK, "sgb_file_size");
    begin_run(0, vertices());
}

static void list(void) {
    fill_run();
    must_call(&graph, ID);
    put_listing();
}

/* The names as lines, where these are said to have so many places more than they must, and the starts so many. */
static uint64_t lines_by(char *lines, int by, int starts_by) {
    return sgb_name_lines(name_starts, count + 1ull + (uint64_t)(int64_t)starts_by, names, size.names, lines,
                          size.names + count + (uint64_t)(int64_t)by);
}

static void list_names(void) {
    must_call(&graph, NAMES);
    const uint64_t all = size.names + count;
    char *lines = array(all, 1);
    if (all > 0) must(lines_by(lines, -1, 0), SGB_WRONG_LENGTH, "lines that are too short");
    must(lines_by(lines, 1, 0), SGB_WRONG_LENGTH, "lines that are too long");
    must(lines_by(lines, 1, 1), SGB_WRONG_LENGTH, "starts that are no table");
    if (!is_untouched(lines, all + 2)) fail("lines of a wrong length are written");
    must(lines_by(lines, 0, 0), SGB_OK, "sgb_name_lines");
    if (!is_untouched(lines + all, 2)) fail("lines are written past the end");
    fwrite(lines, 1, all, stdout);
    free(lines);
}

static void list_ints(void) {
    for (field = 0; field < 7; field++) {
        uint64_t answer = call(&graph, INTS);
        printf("%" PRIu32 " %" PRIu64, field, answer);
        for (uint32_t v = 0; answer == SGB_OK && v < count; v++) printf(" %" PRId64, values[v]);
        putchar('\n');
    }
}

static void save(void) {
    must_call(&graph, WHOLE_FILE);
    fwrite(file, 1, size.file, stdout);
}

static void list_kinds(void) {
    must_call(&graph, KINDS);
    printf("%.14s\n", kinds);
}

static void wrong(void) {
    uint64_t before = state();
    uint64_t fitting = call(&graph, INTS);
    free_arrays();
    make_arrays();
    for (int which = 0; which < CALLS; which++)
        for (int other = 0; other < array_counts[which]; other++)
            for (int by = -1; by <= 1; by += 2) {
                if (by < 0 && places(which, other) == 0) continue;
                must(call_by(&graph, which, other, by), which == INTS && fitting != SGB_OK ? SGB_NO_INTEGERS : SGB_WRONG_LENGTH,
                     call_names[which]);
                if (state() != before) fail("an array of a wrong length is written to");
            }
    const uint32_t no_fields[] = {6, 7, 1u << 31, UINT32_MAX};
    for (int k = 0; k < 4; k++) {
        field = no_fields[k];
        for (int by = -(count > 0); by <= 1; by++) must(call_by(&graph, INTS, 0, by), SGB_NO_INTEGERS, "sgb_ints of no field");
    }
    if (state() != before) fail("an array for no field is written to");
    puts("right");
}

/* Each call on a handle of no graph says so, and writes nothing: whatever the run, the field and the lengths. */
static void is_closed(sgb_graph *at) {
    if (at->is_open) fail("a handle of no graph is open");
    make_arrays();
    uint64_t before = state();
    for (int which = 0; which < CALLS; which++)
        for (int by = 0; by < 2; by++) must(call_by(at, which, 0, by), SGB_NOT_OPEN, call_names[which]);
    uint32_t kept = first;
    first = UINT32_MAX;
    field = UINT32_MAX;
    for (int which = 0; which < CALLS; which++) must(call(at, which), SGB_NOT_OPEN, call_names[which]);
    first = kept;
    field = 3;
    if (state() != before) fail("written to without a graph");
    free_arrays();
}

/* The handle holds the graph of all whose arrays this is the state. */
static void is_graph(sgb_graph *at, uint64_t wanted) {
    if (!at->is_open || !at->held) fail("the handle of a graph is not open");
    make_arrays();
    for (int which = 0; which < CALLS; which++)
        if (which != INTS) must_call(at, which);
    call(at, INTS);
    if (state() != wanted) fail("other arrays than before");
    if (memcmp(&told, &size, sizeof size) != 0) fail("other sizes than before");
    free_arrays();
}

static void handles(void) {
    static const char other[] = "simplex(3,-3,0,0,0,0,0)";
    sgb_graph second = SGB_NO_GRAPH;
    sgb_graph_sizes others;
    /* what the first graph is */
    for (int which = 0; which < CALLS; which++) call(&graph, which);
    uint64_t wanted = state(), arcs = 0;
    free_arrays();
    /* it stays where a graph is opened over it, also one that is refused */
    must(open_text(&graph), SGB_ALREADY_OPEN, "opening it again");
    must(sgb_open(other, strlen(other), "", 0, &graph), SGB_ALREADY_OPEN, "opening another one over it");
    must(sgb_open("board(3,", 8, "", 0, &graph), SGB_ALREADY_OPEN, "a bad text over it");
    is_graph(&graph, wanted);
    /* two at once: another graph, which is none of this one's; its text is its input too */
    must(sgb_sizes(&second, &others), SGB_NOT_OPEN, "sgb_sizes of a second handle");
    must(sgb_open(other, strlen(other), other, strlen(other), &second), SGB_OK, "a second graph");
    must(sgb_sizes(&second, &others), SGB_OK, "sgb_sizes of the second graph");
    must(sgb_arcs(&second, &arcs), SGB_OK, "sgb_arcs of the second graph");
    if (others.vertices != 20 || arcs != 120) fail("the second graph is another one");
    is_graph(&graph, wanted);
    sgb_close(&second);
    is_closed(&second);
    is_graph(&graph, wanted);
    /* two of the same text, of which the first is closed first */
    must(open_text(&second), SGB_OK, "the same graph again");
    sgb_close(&graph);
    is_closed(&graph);
    is_graph(&second, wanted);
    sgb_close(&graph);
    is_closed(&graph);
    is_graph(&second, wanted);
    /* a handle that was closed is opened again; one that was refused is closed */
    must(open_text(&graph), SGB_OK, "opening a handle that was closed");
    is_graph(&graph, wanted);
    sgb_close(&second);
    sgb_close(&second);
    is_closed(&second);
    must(sgb_open("board(3,", 8, "", 0, &second), SGB_BAD_EXPRESSION + 8, "a bad text");
    is_closed(&second);
    is_graph(&graph, wanted);
    uint64_t said = sgb_version();
    char number[64];
    snprintf(number, sizeof number, "%" PRIu64 ".%" PRIu64 ".%" PRIu64, said / 1000000, said / 1000 % 1000, said % 1000);
    if (strcmp(number, SGB_VERSION) != 0) fail("another version than that of sgb.h");
    puts("right");
    make_arrays();
}

static void answer(void) {
    uint64_t none[3] = {0, 0, 0}, opened = open_text(&graph);
    count = 1;
    field = 9;
    make_arrays();
    uint64_t before = state();
    printf("%" PRIu64, opened);
    for (int which = 0; which < CALLS; which++) {
        uint64_t said = call_with(&graph, which, none);
        printf(" %" PRIu64, said);
        if (said == SGB_OK) memset(&told, 0x5a, sizeof told);
        if (state() != before) fail("a call that is refused writes");
    }
    putchar('\n');
    free_arrays();
    sgb_close(&graph);
    is_closed(&graph);
}

static int draws(char **words) {
    int64_t start = strtoll(words[0], NULL, 10);
    uint64_t skip = strtoull(words[1], NULL, 10), so_many = strtoull(words[2], NULL, 10);
    uint32_t m = strtoul(words[3], NULL, 10);
    uint32_t *out = array(so_many, sizeof *out);
    if (m == 0)
        sgb_draws(start, skip, out, so_many);
    else
        must(sgb_uniform_draws(start, skip, m, out, so_many), SGB_OK, "sgb_uniform_draws");
    if (!is_untouched(out + so_many, 8)) fail("draws are written past the end");
    for (uint64_t k = 0; k < so_many; k++) printf("%" PRIu32 "\n", out[k]);
    uint32_t *other = array(3, sizeof *other);
    must(sgb_uniform_draws(start, skip, 0, other, 3), SGB_BAD_BOUND, "a bound of 0");
    must(sgb_uniform_draws(start, skip, 0x80000001u, other, 3), SGB_BAD_BOUND, "a bound above 2^31");
    if (!is_untouched(other, 20)) fail("draws with a bad bound are written");
    free(out);
    free(other);
    return 0;
}

static int on_graph(const char *word) {
    if (strcmp(word, "answer") == 0) {
        answer();
        return 0;
    }
    begin_whole();
    if (strcmp(word, "list") == 0) list();
    else if (strcmp(word, "names") == 0) list_names();
    else if (strcmp(word, "ints") == 0) list_ints();
    else if (strcmp(word, "save") == 0) save();
    else if (strcmp(word, "kinds") == 0) list_kinds();
    else if (strcmp(word, "wrong") == 0) wrong();
    else if (strcmp(word, "handles") == 0) handles();
    else if (strcmp(word, "refuse") == 0) refuse(0);
    else if (strcmp(word, "refuse_built") == 0) refuse(1);
    else fail("usage");
    ends_are_kept();
    free_arrays();
    sgb_close(&graph);
    return 0;
}

int main(int words_len, char **words) {
    if (words_len == 6 && strcmp(words[1], "draws") == 0) return draws(words + 2);
    if (words_len < 3 || words_len > 5) fail("usage");
    set_text(words[2]);
    input = whole(stdin, &input_len);
    int status = strncmp(words[1], "chunk", 5) == 0 ? on_chunks(words_len, words) : words_len == 3 ? on_graph(words[1]) : 2;
    free(input);
    return status;
}
