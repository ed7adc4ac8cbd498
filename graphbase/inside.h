/* What the sources of libgb share. Their names begin with sgb_, as no program's of GraphBase does. A long has 32 bits on some
 * systems: so what counts bytes, records or digits is a long long. */
#ifndef SGB_GRAPHBASE_INSIDE_H
#define SGB_GRAPHBASE_INSIDE_H

#include <stddef.h>

#include "gb_graph.h"

#define LINE_BYTES 79       /* that a line of a file has at most */
#define STRING_BYTES 4095   /* that a string of a file has at most */
#define ID_BYTES 160        /* that an id has at most */
#define CHECKSUM_PRIME 1073741741L

/* Vertices as one field may hold instead of a vertex: it is the value 1 of a boolean. */
#define ONE ((Vertex *)1)

/* The places of bytes in the order of checksums; 255 is the place of those that no file has. */
typedef struct {
    unsigned char place[256];
} sgb_order;

void sgb_order_init(sgb_order *order);
/* The checksum after one more line, which has no spaces at its end, and its newline. */
long sgb_checksum(const sgb_order *order, long sum, const char *line, size_t length);

/* A file that is written in memory: records, of fields with commas between them, on lines. */
typedef struct {
    char *bytes;
    size_t length, room;
    size_t line; /* where the last line begins */
    long sum;    /* of the lines that have ended and count */
    char piece[STRING_BYTES + 8]; /* the last field, whose comma is not decided yet */
    size_t piece_length;
    int is_first;  /* whether the record has no field yet */
    int is_failed; /* no memory: what was written is of no use */
    sgb_order order;
} sgb_writer;

void sgb_write_begin(sgb_writer *w);
/* A line by itself, which no checksum counts. */
void sgb_write_line(sgb_writer *w, const char *line);
void sgb_write_number(sgb_writer *w, long long value);
/* A letter and a number: a vertex, or an arc. */
void sgb_write_place(sgb_writer *w, char letter, long long number);
/* A string as a file can hold it; the anomalies of save_graph. */
long sgb_write_string(sgb_writer *w, const char *string, size_t most);
void sgb_write_end(sgb_writer *w); /* of a record */

/* The graph of a file in memory, which is the current one then; or NULL and the code. */
Graph *sgb_read_graph(const char *bytes, size_t length, long *code);

#endif
