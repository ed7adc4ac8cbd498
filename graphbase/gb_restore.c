/* The graph of a file in memory (GB_SAVE, restore_graph): each line by itself, and all of a graph's arcs in one block, so
 * that the two records of an edge lie side by side. */
#include <limits.h>
#include <stdlib.h>

#include "gb_save.h"
#include "inside.h"

#define MOST_VERTICES 1000000000L
#define MOST_DIGITS 18

typedef struct {
    const char *at, *end;    /* what follows the line */
    const char *here, *stop; /* what is left of the line, whose last spaces do not count */
    int is_fresh;            /* whether the record has no field yet */
    sgb_order order;
    long sum;
    Graph *graph;
    Arc *arcs;
    long long vertices_count, arcs_count;
    char *strings, *strings_end; /* what is left of the block for strings */
    long code;                   /* why there is no graph */
} reader;

/* Faults: 0, which is false */
static int is_wrong(reader *r, long code) {
    if (!r->code) r->code = code;
    return 0;
}

static int next_line(reader *r) {
    const char *newline;
    if (r->at == r->end) return 0;
    newline = memchr(r->at, '\n', (size_t)(r->end - r->at));
    r->here = r->at;
    r->stop = newline ? newline : r->end;
    r->at = newline ? newline + 1 : r->end;
    while (r->stop > r->here && r->stop[-1] == ' ') r->stop--;
    if (r->here == r->stop || *r->here != '*')
        r->sum = sgb_checksum(&r->order, r->sum, r->here, (size_t)(r->stop - r->here));
    return 1;
}

static int is_there(reader *r, const char *word) {
    size_t length = strlen(word);
    if ((size_t)(r->stop - r->here) < length || memcmp(r->here, word, length) != 0) return 0;
    r->here += length;
    return 1;
}

static int is_line(reader *r, const char *word) {
    return next_line(r) && is_there(r, word) && r->here == r->stop;
}

static int is_digit(char byte) { return byte >= '0' && byte <= '9'; }

/* A number of the file's own: 1 to 18 digits. */
static int count(reader *r, long long *value) {
    int digits = 0;
    *value = 0;
    while (r->here < r->stop && is_digit(*r->here) && digits < MOST_DIGITS) {
        *value = 10 * *value + (*r->here++ - '0');
        digits++;
    }
    return digits > 0 && !(r->here < r->stop && is_digit(*r->here));
}

/* The same where a long has it. */
static int long_count(reader *r, long *value) {
    long long wide;
    if (!count(r, &wide) || wide > LONG_MAX) return 0;
    *value = (long)wide;
    return 1;
}

/* A field's number: 1 to 20 digits, of a value that a long has. */
static int integer(reader *r, long *value) {
    int is_minus = is_there(r, "-"), digits = 0;
    unsigned long most = is_minus ? 1UL + LONG_MAX : LONG_MAX, sum = 0;
    for (; r->here < r->stop && is_digit(*r->here) && digits < 20; r->here++, digits++) {
        unsigned long digit = (unsigned long)(*r->here - '0');
        if (sum > (most - digit) / 10) return 0;
        sum = 10 * sum + digit;
    }
    *value = is_minus ? (long)(0UL - sum) : (long)sum;
    return digits > 0;
}

/* Records and fields */

static int begin_record(reader *r) {
    r->is_fresh = 1;
    return next_line(r);
}

static int end_record(reader *r) { return r->here == r->stop; }

/* What stands before a field: nothing before the first; a comma before another, after which the line may end. */
static int begin_field(reader *r) {
    if (r->is_fresh) {
        r->is_fresh = 0;
        return 1;
    }
    return is_there(r, ",") && (r->here < r->stop || next_line(r));
}

/* The bytes between quotes, with a zero byte after them; a backslash at the end of a line and the newline count as
 * nothing. How many they are, or -1. */
static long quoted(reader *r, char *to, long most) {
    long length = 0;
    if (!is_there(r, "\"")) return -1;
    while (!is_there(r, "\"")) {
        if (r->here == r->stop) return -1;
        if (*r->here == '\\') {
            if (r->here + 1 != r->stop || !next_line(r)) return -1;
        } else {
            if (*r->here < ' ' || *r->here > '~' || length == most) return -1;
            to[length++] = *r->here++;
        }
    }
    to[length] = '\0';
    return length;
}

/* Room for a string in the graph's data. Blocks are small where not much is left to read. */
static char *string_room(reader *r, long size) {
    char *found;
    if (r->strings_end - r->strings < size) {
        long long left = r->end - r->at;
        long block = left > 65536 ? 65536 : left > 1016 ? (long)left : 1016;
        if (block < size) block = size;
        r->strings = gb_alloc(block, r->graph->data);
        if (!r->strings) {
            r->strings_end = NULL;
            return NULL;
        }
        r->strings_end = r->strings + block;
    }
    found = r->strings;
    r->strings += size;
    return found;
}

static int string(reader *r, char **value) {
    char bytes[STRING_BYTES + 1];
    long length = quoted(r, bytes, STRING_BYTES);
    if (length < 0) return 0;
    if (length == 0) {
        *value = null_string;
        return 1;
    }
    *value = string_room(r, length + 1);
    if (!*value) return is_wrong(r, no_room);
    memcpy(*value, bytes, (size_t)length + 1);
    return 1;
}

static int vertex(reader *r, Vertex **value) {
    long long number;
    if (is_there(r, "V")) {
        if (!count(r, &number) || number >= r->vertices_count) return 0;
        *value = r->graph->vertices + number;
        return 1;
    }
    *value = r->here < r->stop && *r->here == '1' ? ONE : NULL;
    return is_there(r, "0") || is_there(r, "1");
}

static int arc(reader *r, Arc **value) {
    long long number;
    *value = NULL;
    if (!is_there(r, "A")) return is_there(r, "0");
    if (!count(r, &number) || number >= r->arcs_count) return 0;
    *value = r->arcs + number;
    return 1;
}

static int utility(reader *r, char type, util *value) {
    if (type == 'Z') return 1;
    if (!begin_field(r)) return 0;
    switch (type) {
    case 'I': return integer(r, &value->I);
    case 'S': return string(r, &value->S);
    case 'V': return vertex(r, &value->V);
    default: return arc(r, &value->A);
    }
}

static int vertex_record(reader *r, Vertex *v) {
    const char *types = r->graph->util_types;
    return begin_record(r) && begin_field(r) && string(r, &v->name) && begin_field(r) && arc(r, &v->arcs)
        && utility(r, types[0], &v->u) && utility(r, types[1], &v->v) && utility(r, types[2], &v->w)
        && utility(r, types[3], &v->x) && utility(r, types[4], &v->y) && utility(r, types[5], &v->z) && end_record(r);
}

static int arc_record(reader *r, Arc *a) {
    const char *types = r->graph->util_types;
    return begin_record(r) && begin_field(r) && vertex(r, &a->tip) && begin_field(r) && arc(r, &a->next)
        && begin_field(r) && integer(r, &a->len) && utility(r, types[6], &a->a) && utility(r, types[7], &a->b)
        && end_record(r);
}

static int graph_record(reader *r) {
    Graph *g = r->graph;
    const char *types = g->util_types;
    return begin_record(r) && begin_field(r) && quoted(r, g->id, ID_BYTES) >= 0 && begin_field(r) && long_count(r, &g->n)
        && g->n <= r->vertices_count && begin_field(r) && long_count(r, &g->m) && utility(r, types[8], &g->uu)
        && utility(r, types[9], &g->vv) && utility(r, types[10], &g->ww) && utility(r, types[11], &g->xx)
        && utility(r, types[12], &g->yy) && utility(r, types[13], &g->zz) && end_record(r);
}

/* The whole */

/* Fourteen letters, which say what the utility fields hold. */
static int letters(reader *r, char types[15]) {
    int k;
    for (k = 0; k < 14; k++) {
        if (r->here == r->stop || !strchr("ZIVSA", *r->here) || !*r->here) return 0;
        types[k] = *r->here++;
    }
    types[14] = '\0';
    return 1;
}

/* The first line: the types, and how many records there are. Lines with a star may stand before it. */
static int head(reader *r, char types[15]) {
    while (next_line(r)) {
        int is_starred = r->here < r->stop && *r->here == '*';
        if (is_there(r, "* GraphBase graph (util_types ") && letters(r, types) && is_there(r, ",")
            && count(r, &r->vertices_count) && r->vertices_count <= MOST_VERTICES && is_there(r, "V,")
            && count(r, &r->arcs_count) && is_there(r, "A)"))
            return 1;
        if (!is_starred) break;
    }
    return is_wrong(r, early_data_fault);
}

/* Room for all records; a file that is too short for them has not all of them. */
static int room_for_records(reader *r, const char *types) {
    long long left = r->end - r->at;
    if (r->vertices_count > left / 5 || r->arcs_count > left / 6) return is_wrong(r, syntax_error);
    r->graph = gb_new_graph((long)r->vertices_count);
    if (!r->graph) return is_wrong(r, no_room);
    memcpy(r->graph->util_types, types, 15);
    if (r->arcs_count > 0) {
        int is_too_large = r->arcs_count > LONG_MAX / (long)sizeof(Arc);
        r->arcs = is_too_large ? NULL : gb_typed_alloc((size_t)r->arcs_count, Arc, r->graph->data);
        if (!r->arcs) return is_wrong(r, no_room);
    }
    return 1;
}

static int records(reader *r) {
    long long k;
    if (!graph_record(r) || !is_line(r, "* Vertices")) return is_wrong(r, syntax_error);
    for (k = 0; k < r->vertices_count; k++)
        if (!vertex_record(r, r->graph->vertices + k)) return is_wrong(r, syntax_error);
    if (!is_line(r, "* Arcs")) return is_wrong(r, syntax_error);
    for (k = 0; k < r->arcs_count; k++)
        if (!arc_record(r, r->arcs + k)) return is_wrong(r, syntax_error);
    return 1;
}

/* The line with the checksum; one below 0 is not compared. */
static int checksum(reader *r) {
    long long said;
    int is_minus;
    if (!next_line(r) || !is_there(r, "* Checksum ")) return is_wrong(r, late_data_fault);
    is_minus = is_there(r, "-");
    if (!count(r, &said)) return is_wrong(r, late_data_fault);
    return (is_minus && said > 0) || said == r->sum || is_wrong(r, late_data_fault);
}

enum { UNSEEN, UNDER_WAY, ENDS, LISTED };

/* Whether the chain from here on ends: each record of it is marked so. */
static int chain_ends(reader *r, Arc *begin, unsigned char *marks) {
    Arc *a;
    for (a = begin; a && marks[a - r->arcs] == UNSEEN; a = a->next) marks[a - r->arcs] = UNDER_WAY;
    if (a && marks[a - r->arcs] == UNDER_WAY) return 0;
    for (a = begin; a && marks[a - r->arcs] == UNDER_WAY; a = a->next) marks[a - r->arcs] = ENDS;
    return 1;
}

static int lists_are_sound(reader *r) {
    unsigned char *marks = calloc((size_t)r->arcs_count + 1, 1);
    int is_sound = marks != NULL;
    long long k;
    Arc *a;
    if (!marks) return is_wrong(r, no_room);
    for (k = 0; k < r->arcs_count && is_sound; k++) is_sound = chain_ends(r, r->arcs + k, marks);
    for (k = 0; k < r->vertices_count && is_sound; k++)
        for (a = r->graph->vertices[k].arcs; a && marks[a - r->arcs] != LISTED && is_sound; a = a->next) {
            marks[a - r->arcs] = LISTED;
            is_sound = a->tip != NULL && a->tip != ONE;
        }
    free(marks);
    return is_sound || is_wrong(r, syntax_error);
}

Graph *sgb_read_graph(const char *bytes, size_t length, long *code) {
    reader r = {0};
    char types[15];
    r.at = bytes;
    r.end = bytes + length;
    sgb_order_init(&r.order);
    if (head(&r, types) && room_for_records(&r, types)) {
        r.sum = 0;
        if (records(&r) && checksum(&r) && lists_are_sound(&r)) return r.graph;
    }
    gb_recycle(r.graph);
    gb_trouble_code = 0;
    *code = r.code;
    return NULL;
}

/* All bytes of a file; NULL where there is no such file, or no memory, which *code tells. */
static char *bytes_of_file(const char *name, size_t *length, long *code) {
    FILE *file = fopen(name, "rb");
    size_t room = 1 << 16, got;
    char *bytes = file ? malloc(room) : NULL, *more;
    *code = file ? no_room : early_data_fault;
    *length = 0;
    while (bytes && (got = fread(bytes + *length, 1, room - *length, file)) > 0) {
        *length += got;
        if (*length < room) continue;
        more = realloc(bytes, room *= 2);
        if (!more) free(bytes);
        bytes = more;
    }
    if (bytes && ferror(file)) {
        *code = early_data_fault;
        free(bytes);
        bytes = NULL;
    }
    if (file) fclose(file);
    return bytes;
}

Graph *restore_graph(char *f) {
    size_t length;
    long code;
    char *bytes = bytes_of_file(f, &length, &code);
    Graph *g = bytes ? sgb_read_graph(bytes, length, &code) : NULL;
    free(bytes);
    if (!g) panic_code = code;
    return g;
}
