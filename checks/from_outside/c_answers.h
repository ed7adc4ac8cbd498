/* The mode of c_operations.c that looks at answers: it takes this file in, which uses the functions of c_states.h. */
#include <sys/mman.h>

/* Every operation on this graph, and on both, answers so. */
static void must_on_one(sgb_graph *one, sgb_graph *result, uint64_t wanted) {
    sgb_entries list = SGB_NO_ENTRIES;
    must(sgb_complement(one, false, false, false, result), wanted, "sgb_complement");
    must(sgb_lines(one, false, result), wanted, "sgb_lines");
    must(sgb_gunion_self(one, false, false, result), wanted, "sgb_gunion_self");
    must(sgb_intersection_self(one, false, false, result), wanted, "sgb_intersection_self");
    must(sgb_product_self(one, 0, false, result), wanted, "sgb_product_self");
    must(sgb_induced_by(one, &list, false, false, false, result), wanted, "sgb_induced_by");
    must(sgb_wheel_around(one, 3, false, result), wanted, "sgb_wheel_around");
}

static void must_on_two(sgb_graph *one, sgb_graph *other, sgb_graph *result, uint64_t wanted) {
    const sgb_entry entries[] = {{1, other}, {1, NULL}};
    must(sgb_induced(one, entries, 2, false, false, false, result), wanted, "sgb_induced");
    must(sgb_gunion(one, other, false, false, result), wanted, "sgb_gunion");
    must(sgb_intersection(one, other, false, false, result), wanted, "sgb_intersection");
    must(sgb_product(one, other, 0, false, result), wanted, "sgb_product");
}

/* Handles that are open or not: every operation looks at what it is to make first, and then at its operands. */
static void handles(void) {
    sgb_graph is_open = SGB_NO_GRAPH, none = SGB_NO_GRAPH, result = SGB_NO_GRAPH;
    must(sgb_open("petersen()", 10, "", 0, &is_open), SGB_OK, "sgb_open");
    must_on_one(&none, &result, SGB_NOT_OPEN);
    must_on_two(&none, &is_open, &result, SGB_NOT_OPEN);
    must_on_two(&is_open, &none, &result, SGB_NOT_OPEN);
    must_on_two(&none, &none, &result, SGB_NOT_OPEN);
    must(sgb_open("complete(2)", 11, "", 0, &result), SGB_OK, "sgb_open");
    sgb_graph *const ones[] = {&is_open, &none};
    for (int k = 0; k < 4; k++) {
        must_on_one(ones[k / 2], &result, SGB_ALREADY_OPEN);
        must_on_two(ones[k / 2], ones[k % 2], &result, SGB_ALREADY_OPEN);
    }
    must(sgb_bi_complete(-1, 1, false, &result), SGB_ALREADY_OPEN, "sgb_bi_complete");
    must(sgb_wheel(1, -1, false, &result), SGB_ALREADY_OPEN, "sgb_wheel");
    sizes_of(&result);
    if (vertices() != 2) fail("a graph is made over another");
    if (none.is_open || !is_open.is_open) fail("an operand is opened or closed");
    sgb_close(&result);
    sgb_close(&is_open);
}

/* A list of entries grows, is used as often as one likes, and holds copies. */
static void lists(void) {
    sgb_graph is_open = SGB_NO_GRAPH, none = SGB_NO_GRAPH, result = SGB_NO_GRAPH;
    sgb_entries list = SGB_NO_ENTRIES;
    must(sgb_open("petersen()", 10, "", 0, &is_open), SGB_OK, "sgb_open");
    must(sgb_entries_graph(&list, &none), SGB_NOT_OPEN, "sgb_entries_graph");
    if (list.is_held) fail("a list of no entries holds something");
    for (int k = 0; k < 9; k++) must(sgb_entries_number(&list, 1), SGB_OK, "sgb_entries_number");
    must(sgb_induced_by(&is_open, &list, false, false, false, &result), SGB_BAD_SPECS, "nine entries for ten vertices");
    sgb_graph entry = SGB_NO_GRAPH;
    must(sgb_open("complete(3)", 11, "", 0, &entry), SGB_OK, "sgb_open");
    must(sgb_entries_graph(&list, &entry), SGB_OK, "sgb_entries_graph");
    sgb_close(&entry);
    for (int k = 0; k < 2; k++) {
        must(sgb_induced_by(&is_open, &list, false, false, false, &result), SGB_OK, "sgb_induced_by");
        sizes_of(&result);
        if (vertices() != 12) fail("nine vertices and three");
        sgb_close(&result);
    }
    sgb_entries_close(&list);
    sgb_entries_close(&list);
    if (list.is_held) fail("a list that is closed holds something");
    must(sgb_induced_by(&is_open, &list, false, false, false, &result), SGB_BAD_SPECS, "an empty list");
    sgb_close(&is_open);
}

/* A rim of any number of vertices: of one that is not positive it is the board of 8 by 8. */
static void rims(void) {
    const int64_t rim_sizes[] = {INT64_MIN, -1000000000000000000, 0, 999999991, 1000000000000000000, INT64_MAX};
    sgb_graph middle = SGB_NO_GRAPH, result = SGB_NO_GRAPH;
    must(sgb_open("petersen()", 10, "", 0, &middle), SGB_OK, "sgb_open");
    for (int k = 0; k < 12; k++) {
        int64_t n = rim_sizes[k / 2];
        must(sgb_wheel_around(&middle, n, k % 2, &result), n > 0 ? SGB_VERY_BAD_SPECS : SGB_OK, "a rim");
        if (n > 0) continue;
        sizes_of(&result);
        if (vertices() != 74) fail("a rim of 64 vertices around ten");
        sgb_close(&result);
    }
    sgb_close(&middle);
}

/* sgb_make with these arrays, or with one of them changed. */
static uint64_t starts_of[4] = {0, 1, 3, 3};
static char names_of[] = "a ~", id_of[] = "own";
static uint32_t from_of[3] = {0, 2, 0}, to_of[3] = {1, 2, 0};
static int64_t lengths_of[3] = {INT64_MIN, INT64_MAX, 0};
static size_t lens[6] = {4, 3, 2, 2, 2, 3};

static uint64_t make_now(void) {
    uint64_t answer = sgb_make(starts_of, lens[0], names_of, lens[1], from_of, lens[2], to_of, lens[3], lengths_of, lens[4], true,
                               id_of, lens[5], &graph);
    if (graph.is_open != (answer == SGB_OK)) fail("sgb_make answers one thing, and does another");
    sgb_close(&graph);
    return answer;
}

static void must_make(uint64_t wanted, const char *what) { must(make_now(), wanted, what); }

/* A byte of a name, and of the id. */
static void bytes_of_texts(void) {
    for (int byte = 0; byte < 256; byte++) {
        uint64_t wanted = byte >= 32 && byte <= 126 && byte != '"' && byte != '\\' ? SGB_OK : SGB_NO_TEXT;
        names_of[1] = (char)byte;
        must_make(wanted, "sgb_make with a byte of a name");
        names_of[1] = ' ';
        id_of[2] = (char)byte;
        must_make(wanted, "sgb_make with a byte of the id");
        id_of[2] = 'n';
    }
}

static void long_texts(void) {
    static char long_name[5000], long_id[200];
    memset(long_name, 'x', sizeof long_name);
    memset(long_id, 'y', sizeof long_id);
    for (size_t size_of_name = 4094; size_of_name < 4098; size_of_name++) {
        const uint64_t places[] = {0, size_of_name};
        must(sgb_make(places, 2, long_name, size_of_name, from_of, 0, to_of, 0, lengths_of, 0, false, "", 0, &graph),
             size_of_name <= 4095 ? SGB_OK : SGB_NO_TEXT, "sgb_make with a long name");
        sgb_close(&graph);
    }
    for (size_t size_of_id = 159; size_of_id < 163; size_of_id++) {
        const uint64_t places[] = {0};
        must(sgb_make(places, 1, "", 0, from_of, 0, to_of, 0, lengths_of, 0, false, long_id, size_of_id, &graph),
             size_of_id <= 160 ? SGB_OK : SGB_NO_TEXT, "sgb_make with a long id");
        sgb_close(&graph);
    }
}

/* An end that is no vertex, where a name is no text, too. */
static void wrong_ends(void) {
    for (int end = 0; end < 2; end++) {
        uint32_t *const ends = end ? to_of : from_of;
        const uint32_t beyond[] = {3, UINT32_MAX};
        from_of[1] = 2;
        for (int k = 0; k < 2; k++) {
            ends[1] = beyond[k];
            must_make(SGB_NO_VERTEX, "sgb_make with an end that is no vertex, and a name that is no text");
        }
        ends[1] = 2;
    }
}

/* Each thing that may be wrong, alone and with those that come after it in the order of the answers. */
static void making(void) {
    must_make(SGB_OK, "sgb_make");
    bytes_of_texts();
    long_texts();
    for (int all = 0; all < 2; all++) {
        if (all) names_of[1] = '"';
        from_of[1] = all ? 3 : 2;
        /* fewer names than starts say, or more; one end or length too many, or too few */
        for (int k = 1; k < 5; k++)
            for (int by = -1; by <= 1; by += 2) {
                lens[k] += by;
                must_make(SGB_WRONG_LENGTH, "sgb_make with arrays of other lengths");
                lens[k] -= by;
            }
        starts_of[0] = 1;
        must_make(SGB_WRONG_LENGTH, "sgb_make with names that begin late");
        starts_of[0] = 0, starts_of[1] = 4;
        must_make(SGB_WRONG_LENGTH, "sgb_make with names that fall");
        starts_of[1] = UINT64_MAX;
        must_make(SGB_WRONG_LENGTH, "sgb_make with names that fall far");
        starts_of[1] = 1, lens[0] = 0;
        must_make(SGB_WRONG_LENGTH, "sgb_make without starts");
        lens[0] = 4;
    }
    wrong_ends();
    must_make(SGB_NO_TEXT, "sgb_make with a name that is no text");
    must(sgb_open("petersen()", 10, "", 0, &graph), SGB_OK, "sgb_open");
    lens[2] = 1;
    must(sgb_make(starts_of, lens[0], names_of, lens[1], from_of, lens[2], to_of, lens[3], lengths_of, lens[4], true, id_of, lens[5],
                  &graph),
         SGB_ALREADY_OPEN, "sgb_make over a graph");
    sgb_close(&graph);
}

/* Sizes that no graph may have: of operands, none of which is built. */
static void too_large_without_memory(sgb_graph *small, sgb_graph *large) {
    sgb_entries none = SGB_NO_ENTRIES;
    for (int type = 0; type < 3; type++) {
        must(sgb_product(large, small, type, false, &graph), SGB_VERY_BAD_SPECS, "sgb_product without memory");
        must(sgb_product(small, large, type, false, &graph), SGB_VERY_BAD_SPECS, "sgb_product without memory");
        must(sgb_product(large, large, type, false, &graph), SGB_VERY_BAD_SPECS, "sgb_product without memory");
    }
    must(sgb_induced_by(large, &none, false, false, false, &graph), SGB_BAD_SPECS, "sgb_induced_by without memory");
    must(sgb_wheel_around(small, 999999991, false, &graph), SGB_VERY_BAD_SPECS, "sgb_wheel_around without memory");
    must(sgb_wheel_around(large, INT64_MAX, true, &graph), SGB_VERY_BAD_SPECS, "sgb_wheel_around without memory");
}

/* What is told before memory is taken: handles that are open or not, sizes, and what is wrong with the arrays of sgb_make. */
static void without_memory(void) {
    sgb_graph is_open = SGB_NO_GRAPH, large = SGB_NO_GRAPH, none = SGB_NO_GRAPH;
    sgb_entries list = SGB_NO_ENTRIES;
    must(sgb_open("petersen()", 10, "", 0, &is_open), SGB_OK, "sgb_open");
    must(sgb_open("board(31622,31622,0,0,1,0,0)", 28, "", 0, &large), SGB_OK, "sgb_open");
    must(sgb_open("circuit(3)", 10, "", 0, &graph), SGB_OK, "sgb_open");
    count_from(1, SIZE_MAX);
    must(sgb_lines(&is_open, false, &graph), SGB_ALREADY_OPEN, "sgb_lines without memory");
    must(sgb_gunion(&is_open, &none, false, false, &graph), SGB_ALREADY_OPEN, "sgb_gunion without memory");
    must(sgb_wheel_around(&none, 3, false, &graph), SGB_ALREADY_OPEN, "sgb_wheel_around without memory");
    sgb_close(&graph);
    must(sgb_gunion(&is_open, &none, false, false, &graph), SGB_NOT_OPEN, "sgb_gunion without memory");
    must(sgb_gunion(&none, &is_open, false, false, &graph), SGB_NOT_OPEN, "sgb_gunion without memory");
    must(sgb_induced(&none, NULL, 0, false, false, false, &graph), SGB_NOT_OPEN, "sgb_induced without memory");
    must(sgb_entries_graph(&list, &none), SGB_NOT_OPEN, "sgb_entries_graph without memory");
    must(sgb_bi_complete(-1, 1, false, &graph), SGB_BAD_SPECS, "sgb_bi_complete without memory");
    must(sgb_wheel(3, -1, false, &graph), SGB_BAD_SPECS, "sgb_wheel without memory");
    too_large_without_memory(&is_open, &large);
    lens[2] = 1;
    must_make(SGB_WRONG_LENGTH, "sgb_make without memory");
    lens[2] = 2, from_of[1] = 3;
    must_make(SGB_NO_VERTEX, "sgb_make without memory");
    from_of[1] = 2, names_of[1] = '"';
    must_make(SGB_NO_TEXT, "sgb_make without memory");
    names_of[1] = ' ';
    if (asked != 0) fail("memory is asked for by what is refused");
    must_make(SGB_NO_ROOM, "sgb_make without memory");
    counting = 0;
    sgb_close(&is_open);
    sgb_close(&large);
}

/* More vertices than a graph may have, each with an empty name: told before an end that is no vertex, and an id that is no text. It
 * reads 8 GB of addresses behind which is one page of zeros; where these are not to be had, it says so. */
static void too_many(void) {
    const size_t places = 1000000002;
    const uint32_t beyond[] = {UINT32_MAX};
    const int64_t length[] = {1};
    uint64_t *starts_of_all = mmap(NULL, 8 * places, PROT_READ, MAP_PRIVATE | MAP_ANONYMOUS | MAP_NORESERVE, -1, 0);
    if (starts_of_all == MAP_FAILED) {
        puts("no addresses");
        return;
    }
    must(sgb_make(starts_of_all, places, "", 0, beyond, 1, beyond, 1, length, 1, false, "\n", 1, &graph), SGB_TOO_MANY, "sgb_make");
    if (graph.is_open) fail("a graph of too many vertices is open");
    munmap(starts_of_all, 8 * places);
    puts("right");
}
