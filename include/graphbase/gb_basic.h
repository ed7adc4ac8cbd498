/* The generators and operations of GB_BASIC that are rebuilt. */
#ifndef SGB_GRAPHBASE_GB_BASIC_H
#define SGB_GRAPHBASE_GB_BASIC_H

#include "gb_graph.h"

#ifdef __cplusplus
extern "C" {
#endif

extern Graph *board(long n1, long n2, long n3, long n4, long piece, long wrap, long directed);
#define complete(n) board((long)(n), 0L, 0L, 0L, -1L, 0L, 0L)
#define transitive(n) board((long)(n), 0L, 0L, 0L, -1L, 0L, 1L)
#define circuit(n) board((long)(n), 0L, 0L, 0L, 1L, 1L, 0L)
#define cycle(n) board((long)(n), 0L, 0L, 0L, 1L, 1L, 1L)
#if defined __cplusplus && __cplusplus >= 201103L
/* `empty` is a name of the standard library of C++: so it is a function of numbers there, beside one that others declare */
extern "C++" {
template <class N> inline auto empty(N n) -> decltype(board(n + 0L, 0L, 0L, 0L, 2L, 0L, 0L)) {
    return board(n + 0L, 0L, 0L, 0L, 2L, 0L, 0L);
}
}
#else
#define empty(n) board((long)(n), 0L, 0L, 0L, 2L, 0L, 0L)
#endif

extern Graph *simplex(unsigned long n, long n0, long n1, long n2, long n3, long n4, long directed);
extern Graph *subsets(unsigned long n, long n0, long n1, long n2, long n3, long n4, unsigned long size_bits,
                      long directed);
#define disjoint_subsets(n, k) subsets((long)(k), 1L, (long)(1 - (n)), 0L, 0L, 0L, 1L, 0L)
#define petersen() disjoint_subsets(5, 2)

extern Graph *complement(Graph *g, long copy, long self, long directed);
extern Graph *gunion(Graph *g, Graph *gg, long multi, long directed);
extern Graph *intersection(Graph *g, Graph *gg, long multi, long directed);
/* u.V and v.V of a vertex of the result are the ends of its line in g, w.A the arc between them. */
extern Graph *lines(Graph *g, long directed);

#ifdef __cplusplus
enum { cartesian = 0, direct = 1, strong = 2 };
#else
#define cartesian 0
#define direct 1
#define strong 2
#endif
extern Graph *product(Graph *g, Graph *gg, long type, long directed);

/* What stands in the place of a vertex: so many copies; a vertex that is merged of all that have this number below 0; or,
 * from a thousand million on, the graph of another field. */
#define ind z.I
#define IND_GRAPH 1000000000
#define subst y.G
extern Graph *induced(Graph *g, char *description, long self, long multi, long directed);
extern Graph *bi_complete(unsigned long n1, unsigned long n2, long directed);
extern Graph *wheel(unsigned long n, unsigned long n1, long directed);

#ifdef __cplusplus
}
#endif

#endif
