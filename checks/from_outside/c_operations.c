/* A C program on the operations of the library for C, for checks/from_outside/c_operations.py.
 *
 *     c_operations runs FILE      each line of the file is an operation: the answer where it is refused; else the listing and the file
 *                                 of what is made. The operands stay open, and as they are
 *     c_operations refuse FILE    each with each call for memory refused, alone and with all after it: SGB_NO_ROOM, and nothing
 *                                 is made, changed or held
 *     c_operations leaks N FILE   each N times: the process is as large as before
 *     c_operations stack KB FILE  each in a thread of KB kilobytes: how many bytes of its stack it touches, a line each
 *     c_operations answers        the answers that no expression has: handles that are open or not, and those of sgb_make
 *     c_operations many           that of sgb_make where there are more vertices than a graph may have
 *
 * A line is `INPUT OPERATION FLAG FLAG FLAG OPERAND..`, where INPUT is a `.gb` file or `-`, which `stdin` stands for. An operand
 * is an expression; `=`, the first operand once more, the same handle; `#PATH`, the graph that sgb_make makes of what the file
 * says; or after the first one a number. The file says `N M DIRECTED ID`, then a name a line, then `FROM TO LENGTH` a line.
 * What is not as it must be ends it with status 4 and a line. With COUNTED defined, malloc, realloc and free are wrapped. */
#define _GNU_SOURCE
#include "c_counted.h"
#include "c_pages.h"
#include "c_stacks.h"
#include "c_states.h"
#include "c_answers.h"

enum { MOST = 64 };

/* What sgb_make is handed. */
typedef struct {
    uint64_t *name_starts;
    char *names, *id;
    uint32_t *from, *to;
    int64_t *lengths;
    size_t n, m;
    bool directed;
} given_graph;

/* An operation: its name, flags and operands, of which those that stand for themselves are open; `made_of` is what the first one is
 * made of, where it is one's own. */
static char operation[32];
static int64_t flags[3];
static size_t operand_count;
static sgb_graph opened[MOST];
static sgb_entry operands[MOST];
static uint64_t states[MOST];
static given_graph made_of;

static uint64_t make(const given_graph *of, sgb_graph *result) {
    return sgb_make(of->name_starts, of->n + 1, of->names, of->name_starts[of->n], of->from, of->m, of->to, of->m, of->lengths, of->m,
                    of->directed, of->id, strlen(of->id), result);
}

/* The line of a file up to its end, which is passed. */
static char *next_line(char **at) {
    char *line = *at, *end = strchr(line, '\n');
    if (!end) fail("no line");
    *end = '\0';
    *at = end + 1;
    return line;
}

static given_graph given_at(const char *path) {
    size_t len;
    char *bytes = file_at(path, &len), *at = bytes;
    given_graph of;
    int directed, width;
    bytes[len] = '\0';
    char *head = next_line(&at);
    if (sscanf(head, "%zu %zu %d %n", &of.n, &of.m, &directed, &width) != 3) fail("no head");
    of.directed = directed;
    of.id = strdup(head + width);
    of.name_starts = malloc((of.n + 1) * sizeof *of.name_starts);
    of.names = malloc(len + 1);
    of.from = malloc((of.m + 1) * sizeof *of.from);
    of.to = malloc((of.m + 1) * sizeof *of.to);
    of.lengths = malloc((of.m + 1) * sizeof *of.lengths);
    of.name_starts[0] = 0;
    for (size_t v = 0; v < of.n; v++) {
        const char *name = next_line(&at);
        memcpy(of.names + of.name_starts[v], name, strlen(name));
        of.name_starts[v + 1] = of.name_starts[v] + strlen(name);
    }
    for (size_t k = 0; k < of.m; k++)
        if (sscanf(next_line(&at), "%" SCNu32 " %" SCNu32 " %" SCNd64, &of.from[k], &of.to[k], &of.lengths[k]) != 3) fail("no event");
    free(bytes);
    return of;
}

static void give_back(given_graph *of) {
    void *all[] = {of->name_starts, of->names, of->id, of->from, of->to, of->lengths};
    for (size_t k = 0; k < sizeof all / sizeof *all; k++) free(all[k]);
    memset(of, 0, sizeof *of);
}

/* Opens the operand, or finds the number that it is. */
static void open_operand(const char *word) {
    size_t k = operand_count++;
    if (k == MOST) fail("too many operands");
    operands[k] = (sgb_entry){0, &opened[k]};
    if (strcmp(word, "=") == 0) {
        operands[k].graph = &opened[0];
    } else if (*word == '#') {
        given_graph of = given_at(word + 1);
        if (strcmp(operation, "make") != 0) must(make(&of, &opened[k]), SGB_OK, "sgb_make of an operand");
        if (k == 0) made_of = of;
        else give_back(&of);
    } else if (*word == '-' || (*word >= '0' && *word <= '9')) {
        operands[k] = (sgb_entry){strtoll(word, NULL, 10), NULL};
    } else {
        must(sgb_open(word, strlen(word), input, input_len, &opened[k]), SGB_OK, word);
    }
}

/* Reads a line, and opens its operands. */
static void begin(char *line) {
    set_text(line);
    char *copy = strdup(line), *rest = copy;
    const char *place = strtok_r(copy, " ", &rest);
    input_len = 0;
    input = strcmp(place, "-") == 0 ? strdup("") : file_at(place, &input_len);
    snprintf(operation, sizeof operation, "%s", strtok_r(NULL, " ", &rest));
    for (int k = 0; k < 3; k++) flags[k] = strtoll(strtok_r(NULL, " ", &rest), NULL, 10);
    operand_count = 0;
    for (const char *word; (word = strtok_r(NULL, " ", &rest));) open_operand(word);
    free(copy);
    for (size_t k = 0; k < operand_count; k++)
        if (opened[k].is_open) {
            sizes_of(&opened[k]);
            states[k] = state_of(&opened[k]);
        }
}

/* The operands are as they were. */
static void are_kept(void) {
    for (size_t k = 0; k < operand_count; k++)
        if (operands[k].graph == &opened[k] && strcmp(operation, "make") != 0) {
            if (!opened[k].is_open) fail("an operand is closed");
            sizes_of(&opened[k]);
            if (state_of(&opened[k]) != states[k]) fail("an operand is changed");
        }
}

static void end(void) {
    for (size_t k = 0; k < operand_count; k++) sgb_close(&opened[k]);
    give_back(&made_of);
    free(input);
}

static uint64_t operate(sgb_graph *result) {
    sgb_graph *one = operands[0].graph, *other = operands[1].graph;
    const char *is = operation;
    if (strcmp(is, "make") == 0) return make(&made_of, result);
    if (strcmp(is, "complement") == 0) return sgb_complement(one, flags[0], flags[1], flags[2], result);
    if (strcmp(is, "lines") == 0) return sgb_lines(one, flags[0], result);
    if (strcmp(is, "gunion") == 0) return sgb_gunion(one, other, flags[0], flags[1], result);
    if (strcmp(is, "intersection") == 0) return sgb_intersection(one, other, flags[0], flags[1], result);
    if (strcmp(is, "product") == 0) return sgb_product(one, other, flags[0], flags[1], result);
    if (strcmp(is, "induced") == 0)
        return sgb_induced(one, operands + 1, operand_count - 1, flags[0], flags[1], flags[2], result);
    if (strcmp(is, "bi_complete") == 0) return sgb_bi_complete(flags[0], flags[1], flags[2], result);
    if (strcmp(is, "wheel") == 0) return sgb_wheel(flags[0], flags[1], flags[2], result);
    if (strcmp(is, "wheel_around") == 0) return sgb_wheel_around(one, flags[0], flags[1], result);
    fail("no such operation");
    return 0;
}

/* The graph that is open, as the program lists and saves it. */
static void put_graph(void) {
    sizes_of(&graph);
    must(sgb_arcs(&graph, &size.arcs), SGB_OK, "sgb_arcs");
    begin_run(0, vertices());
    fill_run();
    must_call(&graph, ID);
    must_call(&graph, WHOLE_FILE);
    ends_are_kept();
    put_listing();
    puts("--");
    fwrite(file, 1, size.file, stdout);
    free_arrays();
}

static void run(void) {
    uint64_t answer = operate(&graph);
    if (answer == SGB_OK) {
        put_graph();
        are_kept();
        /* it stays where another is made over it */
        sizes_of(&graph);
        uint64_t before = state_of(&graph);
        must(operate(&graph), SGB_ALREADY_OPEN, "making another graph over it");
        sizes_of(&graph);
        if (state_of(&graph) != before) fail("a graph that is made over another");
        sgb_close(&graph);
    } else {
        printf("refused %" PRIu64 "\n", answer);
        if (graph.is_open) fail("a graph that was refused is open");
    }
    are_kept();
    puts("==");
}

/* The operation with calls for memory refused; whether there were so many. The state is that of what it makes. */
static int refused_once(size_t number, size_t last, uint64_t wanted, uint64_t made, size_t *refusals) {
    count_from(number, last);
    uint64_t answer = operate(&graph);
    counting = 0;
    size_t calls = asked;
    if (answer == SGB_OK) {
        sizes_of(&graph);
        if (state_of(&graph) != made) fail("another graph where memory was refused");
        counting = 1;
        sgb_close(&graph);
        counting = 0;
    } else if (answer != wanted || wanted == SGB_OK) {
        must(answer, SGB_NO_ROOM, "an operation that is refused memory");
        if (calls < number) fail("no memory was refused, but the operation was");
        ++*refusals;
    }
    if (graph.is_open) fail("a graph that was refused is open");
    if (held != 0) fail("memory is held after a refusal, or after sgb_close");
    are_kept();
    return calls >= number;
}

static size_t refusals_of_all;

static void refuse(void) {
    uint64_t made = 0, wanted = operate(&graph);
    if (wanted == SGB_OK) {
        sizes_of(&graph);
        made = state_of(&graph);
        sgb_close(&graph);
    }
    size_t refusals = 0;
    for (size_t number = 1; refused_once(number, number, wanted, made, &refusals); number++)
        refused_once(number, SIZE_MAX, wanted, made, &refusals);
    if (wanted == SGB_OK && refusals == 0) fail("it asked for no memory");
    refusals_of_all += refusals;
}

static long rounds_of_leaks;

static void leak(void) {
    long all, there;
    for (long round = -rounds_of_leaks / 50; round < rounds_of_leaks; round++) {
        if (round == 0) pages(&all, &there);
        operate(&graph);
        sgb_close(&graph);
    }
    no_larger(text, all, there);
}

static size_t bytes_of_stack;

static void *idle(void *none) { return none; }

/* What the thread makes: `graph` is a thread's own. */
static sgb_graph result_of_thread = SGB_NO_GRAPH;
static uint64_t answer_in_thread;

static void *operating(void *none) {
    answer_in_thread = operate(&result_of_thread);
    return none;
}

static void stack(void) {
    size_t least = touched_by(idle, bytes_of_stack);
    size_t most = touched_by(operating, bytes_of_stack);
    must(answer_in_thread, SGB_OK, "an operation in a thread");
    sgb_close(&result_of_thread);
    printf("%s %zu\n", operation, most - least);
}

static void each(const char *path, void (*body)(void)) {
    size_t len;
    char *lines = file_at(path, &len), *at = lines;
    lines[len] = '\0';
    while (*at) {
        begin(next_line(&at));
        body();
        end();
    }
    free(lines);
}

int main(int words_len, char **words) {
    if (words_len == 2 && strcmp(words[1], "answers") == 0) {
        handles();
        lists();
        rims();
        making();
        puts("right");
    } else if (words_len == 2 && strcmp(words[1], "many") == 0) {
        too_many();
    } else if (words_len == 3 && strcmp(words[1], "runs") == 0) {
        each(words[2], run);
    } else if (words_len == 3 && strcmp(words[1], "refuse") == 0) {
        each(words[2], refuse);
        without_memory();
        printf("right %zu\n", refusals_of_all);
    } else if (words_len == 4 && strcmp(words[1], "leaks") == 0) {
        rounds_of_leaks = strtol(words[2], NULL, 10);
        each(words[3], leak);
        puts("right");
    } else if (words_len == 4 && strcmp(words[1], "stack") == 0) {
        bytes_of_stack = strtoul(words[2], NULL, 10) << 10;
        each(words[3], stack);
    } else {
        fail("usage");
    }
    return 0;
}
