/* The modes of c_arrays.c for runs: it takes this file in, whose functions use those of c_calls.h. */

/* The name of a vertex of the graph: that of a run of one. The size of the last one is tried first. */
static void put_vertex(uint32_t v) {
    static char bytes[1 << 12];
    static uint64_t len;
    uint64_t at[2];
    uint64_t answer = sgb_names(&graph, v, 1, at, 2, bytes, len);
    if (answer == SGB_WRONG_LENGTH) {
        must(sgb_names_size(&graph, v, 1, &len), SGB_OK, "sgb_names_size of a vertex");
        if (len > sizeof bytes) fail("a name is too long");
        answer = sgb_names(&graph, v, 1, at, 2, bytes, len);
    }
    must(answer, SGB_OK, "sgb_names of a vertex");
    if (at[0] != 0 || at[1] != len) fail("the name of a vertex is not from 0 to its end");
    fwrite(bytes, 1, len, stdout);
}

static void list_chunk(void) {
    fill_run();
    for (uint32_t k = 0; k < count; k++) {
        put_name(k);
        putchar('\n');
        for (uint64_t j = starts[k]; j < starts[k + 1]; j++) {
            fputs("  -> ", stdout);
            put_vertex(tips[j]);
            printf(", length %" PRId64 "\n", lengths[j]);
        }
    }
}

/* The integers of the run are those of the whole graph, where there are any. */
static void ints_are_those(const int64_t *all, uint64_t wanted) {
    must(call(&graph, INTS), wanted, "sgb_ints of a run");
    if (wanted == SGB_OK && memcmp(values, all + first, count * sizeof *values) != 0) fail("other integers in a run");
}

static void list_chunks(uint32_t by) {
    uint32_t n = vertices();
    uint64_t all_arcs = 0, all_names = 0, listed = 0, bytes = 0;
    int64_t *all = array(n, sizeof *all);
    uint64_t has_ints = sgb_ints(&graph, field, 0, n, all, n);
    must(sgb_rows_size(&graph, 0, n, &all_arcs), SGB_OK, "sgb_rows_size of all");
    must(sgb_names_size(&graph, 0, n, &all_names), SGB_OK, "sgb_names_size of all");
    if (by == 0) fail("usage");
    for (uint64_t from = 0; from < n; from += by) {
        begin_run(from, by < n - from ? by : n - from);
        list_chunk();
        ints_are_those(all, has_ints);
        listed += size.listed;
        bytes += size.names;
        free_arrays();
    }
    if (listed != all_arcs || bytes != all_names) fail("other arcs or names are listed than are counted");
    free(all);
}

/* A run that is not there, for arrays that fit the one that was begun, and for others; whatever the field. */
static void is_not_there(uint32_t from, uint32_t so_many) {
    uint32_t kept_first = first, kept_count = count;
    uint64_t before = state();
    for (int which = 0; which < CALLS; which++) {
        uint64_t lens[3];
        for (int k = 0; k < 3; k++) lens[k] = places(which, k);
        first = from;
        count = so_many;
        for (int by = -1; is_of_run[which] && by <= 1; by++) {
            uint64_t others[3] = {lens[0] + by, lens[1], lens[2]};
            field = by < 0 ? 9 : 3;
            must(call_with(&graph, which, others), SGB_NO_VERTEX, call_names[which]);
        }
        first = kept_first;
        count = kept_count;
    }
    field = 3;
    if (state() != before) fail("written to without a run");
}

static void chunk_wrong(void) {
    uint32_t n = vertices();
    begin_run(n / 3, n - n / 3);
    is_not_there(n / 3, n - n / 3 + 1);
    is_not_there(0, n + 1);
    is_not_there(n, 1);
    is_not_there(n + 1, 0);
    is_not_there(1, UINT32_MAX);
    is_not_there(0, UINT32_MAX);
    is_not_there(UINT32_MAX, 0);
    is_not_there(UINT32_MAX, 1);
    is_not_there(UINT32_MAX, UINT32_MAX);
    free_arrays();
    /* no vertices, at the start and at the end */
    for (int is_end = 0; is_end < 2; is_end++) {
        begin_run(is_end ? n : 0, 0);
        if (size.listed != 0 || size.names != 0) fail("a run of no vertices has arcs or names");
        list_chunk();
        free_arrays();
    }
    puts("right");
}

static int on_chunks(int words_len, char **words) {
    open_graph();
    if (words_len == 4 && strcmp(words[1], "chunks") == 0) {
        list_chunks(strtoul(words[3], NULL, 10));
    } else if (words_len == 5 && strcmp(words[1], "chunk") == 0) {
        begin_run(strtoul(words[3], NULL, 10), strtoul(words[4], NULL, 10));
        list_chunk();
        free_arrays();
    } else if (words_len == 3 && strcmp(words[1], "chunk_wrong") == 0) {
        chunk_wrong();
    } else {
        fail("usage");
    }
    sgb_close(&graph);
    return 0;
}
