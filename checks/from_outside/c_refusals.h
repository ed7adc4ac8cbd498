/* The modes of c_arrays.c in which memory is refused: it takes this file in, whose functions use those of c_calls.h. */

#include "c_counted.h"

static void is_closed(sgb_graph *at);
static void is_graph(sgb_graph *at, uint64_t wanted);

/* Opens the graph with memory refused; whether there were so many calls. */
static int refuse_opening(size_t number, size_t last, size_t *refusals) {
    count_from(number, last);
    uint64_t answer = open_text(&graph);
    counting = 0;
    size_t calls = asked;
    if (answer == SGB_OK) {
        if (held == 0) fail("an open graph holds no memory");
        counting = 1;
        sgb_close(&graph);
        counting = 0;
    } else {
        must(answer, SGB_NO_ROOM, "opening that is refused memory");
        if (calls < number) fail("no memory was refused, but the graph was");
        ++*refusals;
    }
    if (held != 0) fail("memory is held after a refusal, or after sgb_close");
    is_closed(&graph);
    return calls >= number;
}

/* Makes a call with memory refused, on fresh arrays; whether there were so many calls for memory. */
static int refuse_call(int which, size_t number, size_t last, uint64_t wanted, uint64_t after, size_t *refusals) {
    make_arrays();
    uint64_t before = state();
    count_from(number, last);
    uint64_t answer = call(&graph, which);
    counting = 0;
    /* a call may do without room that is asked for ahead */
    if (answer != wanted) {
        must(answer, SGB_NO_ROOM, call_names[which]);
        if (asked < number) fail("no memory was refused, but the call was");
        ++*refusals;
    }
    if (state() != (answer == wanted ? after : before)) fail("arrays are not as they were, or as they must be");
    if (held != 0) fail("a call on a graph takes memory and keeps it, or gives back what it did not take");
    free_arrays();
    return asked >= number;
}

/* Each call on the graph, with each call for memory refused. */
static void refuse_calls(int is_built, size_t *refusals) {
    for (int which = 0; which < CALLS; which++) {
        make_arrays();
        count_from(0, 0);
        uint64_t wanted = call(&graph, which);
        counting = 0;
        if (which != INTS) must(wanted, SGB_OK, call_names[which]);
        int takes_none = which == SIZES || which == INTS || which == ID || which == KINDS;
        if (asked != 0 && (is_built || takes_none)) fail("a call takes memory that is to take none");
        uint64_t after = state();
        free_arrays();
        for (size_t number = 1; refuse_call(which, number, number, wanted, after, refusals); number++)
            refuse_call(which, number, SIZE_MAX, wanted, after, refusals);
    }
}

/* What is told before memory is taken, with all of it refused. */
static void refuse_all(void) {
    static char too_large[65537];
    const struct {
        const char *text;
        uint64_t answer;
    } texts[] = {{"board(3,", 1008}, {"petersen", 1008}, {"board(2,-251,0,0,1,0,0)", 30}, {"simplex(-1,0,0,0,0,0,0)", 30},
                 {"board(100000,100000,0,0,1,0,0)", 40}, {too_large, 100}};
    sgb_graph none = SGB_NO_GRAPH;
    memset(too_large, 'x', sizeof too_large);
    make_arrays();
    uint64_t before = state();
    count_from(1, SIZE_MAX);
    for (size_t k = 0; k < sizeof texts / sizeof *texts; k++) {
        size_t len = texts[k].answer == 100 ? sizeof too_large : strlen(texts[k].text);
        must(sgb_open(texts[k].text, len, "", 0, &none), texts[k].answer, "opening without memory");
    }
    must(open_text(&graph), SGB_ALREADY_OPEN, "opening again without memory");
    for (int which = 0; which < CALLS; which++) must(call(&none, which), SGB_NOT_OPEN, call_names[which]);
    for (int which = ROWS; which <= NAMES; which++) must(call_by(&graph, which, 0, 1), SGB_WRONG_LENGTH, call_names[which]);
    field = 9;
    must(call(&graph, INTS), SGB_NO_INTEGERS, "sgb_ints without memory");
    field = 3;
    uint32_t kept = first;
    first = UINT32_MAX;
    for (int which = 0; which < CALLS; which++)
        if (is_of_run[which]) must(call(&graph, which), SGB_NO_VERTEX, call_names[which]);
    first = kept;
    /* names as lines, random numbers, and the version, take none at all */
    static const uint64_t name_places[] = {0, 1, 1, 3};
    char lines[6];
    uint32_t out[3];
    size_t so_many = asked;
    must(sgb_name_lines(name_places, 4, "abc", 3, lines, 6), SGB_OK, "sgb_name_lines without memory");
    if (memcmp(lines, "a\n\nbc\n", 6) != 0) fail("other lines of names");
    sgb_draws(1, 60, out, 3);
    must(sgb_uniform_draws(1, 60, 6, out, 3), SGB_OK, "sgb_uniform_draws without memory");
    sgb_version();
    counting = 0;
    if (asked != so_many) fail("lines or random numbers take memory");
    if (state() != before || held != 0) fail("what is refused writes, or holds memory");
    free_arrays();
}

static void refuse(int is_built) {
    size_t refusals = 0;
    /* another graph is open meanwhile, and stays as it is */
    sgb_graph other = SGB_NO_GRAPH;
    must(open_text(&other), SGB_OK, "a second graph");
    for (int which = 0; which < CALLS; which++) call(&graph, which);
    uint64_t wanted = state();
    free_arrays();
    refuse_calls(is_built, &refusals);
    refuse_all();
    sgb_close(&graph);
    for (size_t number = 1; refuse_opening(number, number, &refusals); number++) refuse_opening(number, SIZE_MAX, &refusals);
    is_graph(&other, wanted);
    sgb_close(&other);
    if (refusals == 0) fail("no call asked for memory");
    /* a run in the middle */
    open_graph();
    must(sgb_file_size(&graph, &size.file), SGB_OK, "sgb_file_size");
    uint32_t n = vertices();
    begin_run(n / 3, n / 2);
    free_arrays();
    refuse_calls(is_built, &refusals);
    make_arrays();
    printf("right %zu\n", refusals);
}
