/* Graphs in memory as the Stanford GraphBase has them (GB_GRAPH), for programs that were written over it.
 *
 *     cc -Iinclude/graphbase program.c -L. -lgb -lsgb
 *
 * The structures, names and rules are those of the published library, so that a program compiles as it stands;
 * docs/GRAPHBASE.md says what is here, what is not, and what differs. */
#ifndef SGB_GRAPHBASE_GB_GRAPH_H
#define SGB_GRAPHBASE_GB_GRAPH_H

/* programs count on these two */
#include <stdio.h>
#include <string.h>

#ifdef __cplusplus
extern "C" {
#endif

/* A utility field: a program says what it holds. */
typedef union {
    struct vertex_struct *V;
    struct arc_struct *A;
    struct graph_struct *G;
    char *S;
    long I;
} util;

typedef struct vertex_struct {
    struct arc_struct *arcs; /* the first arc from here */
    char *name;
    util u, v, w, x, y, z;
} Vertex;

typedef struct arc_struct {
    struct vertex_struct *tip; /* where the arc leads */
    struct arc_struct *next;   /* the next arc from the same vertex */
    long len;
    util a, b;
} Arc;

/* An area: blocks of memory that are given back together. A block ends with a record that tells where it begins, and of
 * the block that was taken before it. */
struct area_pointers {
    char *first;
    struct area_pointers *next;
};
typedef struct area_pointers *Area[1];
#define init_area(s) *s = NULL

#define ID_FIELD_SIZE 161

typedef struct graph_struct {
    Vertex *vertices;
    long n;                 /* how many vertices */
    long m;                 /* how many arcs; an edge is two */
    char id[ID_FIELD_SIZE]; /* the official name */
    char util_types[15];    /* what the utility fields hold: a letter of Z I V S A G each, of vertices u v w x y z, of
                               arcs a b, of graphs uu vv ww xx yy zz */
    Area data;              /* vertices, arcs and names */
    Area aux_data;          /* whatever a program adds */
    util uu, vv, ww, xx, yy, zz;
} Graph;

typedef unsigned long siz_t;

extern long verbose;         /* not 0 where a program may say more */
extern long panic_code;      /* why the last call that answered NULL did so */
extern long gb_trouble_code; /* not 0 after memory was refused: 1 by the system, 2 for a size that makes no sense */
extern long extra_n;         /* vertices that gb_new_graph adds behind the n */
extern char null_string[];   /* "" */
extern siz_t edge_trick;     /* the bit of addresses in which the two arcs of an edge differ */

#define alloc_fault (-1)
#define no_room 1
#define early_data_fault 10
#define late_data_fault 11
#define syntax_error 20
#define bad_specs 30
#define very_bad_specs 40
#define missing_operand 50
#define invalid_operand 60
#define impossible 90

/* n bytes in an area, all 0; NULL and gb_trouble_code where there are none. */
extern char *gb_alloc(long n, Area s);
#define gb_typed_alloc(n, t, s) ((t *)gb_alloc((long)((n) * sizeof(t)), s))
/* Gives all blocks of an area back. */
extern void gb_free(Area s);

/* The first n_1 vertices are one part of a bipartite graph. */
#define n_1 uu.I
#define mark_bipartite(g, n1) g->n_1 = n1, g->util_types[8] = 'I'

/* A graph of n vertices without arcs, which is the current one from now on; NULL where there is no memory. */
extern Graph *gb_new_graph(long n);
/* Makes the id of g: s1, the id of gg, s2. What does not fit is cut, and "...)" stands where it was. */
extern void make_compound_id(Graph *g, char *s1, Graph *gg, char *s2);
extern void make_double_compound_id(Graph *g, char *s1, Graph *gg, char *s2, Graph *ggg, char *s3);

/* The current graph's next arc record, which is on no list. */
extern Arc *gb_virgin_arc(void);
/* An arc from u to v, in front of the list of u. */
extern void gb_new_arc(Vertex *u, Vertex *v, long len);
/* An edge: an arc and one back, side by side in memory, that from the smaller end first. */
extern void gb_new_edge(Vertex *u, Vertex *v, long len);
/* A copy of a string in the current graph's data. */
extern char *gb_save_string(char *s);
/* Makes g the current graph. Meanwhile ww, xx, yy, zz of a graph that is not current hold where its next records go. */
extern void switch_to_graph(Graph *g);
/* Gives a graph back. */
extern void gb_recycle(Graph *g);

/* Vertices by their names; u and v of each vertex are in use for it. hash_in and hash_out are about the current graph. */
#define hash_link u.V
#define hash_head v.V
extern void hash_in(Vertex *v);
extern Vertex *hash_out(char *s);
extern void hash_setup(Graph *g);
extern Vertex *hash_lookup(char *s, Graph *g);

#ifdef __cplusplus
}
#endif

#endif
