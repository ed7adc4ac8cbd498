/* Graphs in files (GB_SAVE). */
#ifndef SGB_GRAPHBASE_GB_SAVE_H
#define SGB_GRAPHBASE_GB_SAVE_H

#include "gb_graph.h"

#ifdef __cplusplus
extern "C" {
#endif

/* Writes a graph to the file named f. 0 where the file tells all of it; else the sum of what follows; -1 for no graph,
 * -2 where there is no memory, -3 where the file cannot be written. */
extern long save_graph(Graph *g, char *f);
#define bad_type_code 0x1         /* a letter of util_types is none of Z I V S A: it counts as Z */
#define string_too_long 0x2       /* a string is cut to 4,095 bytes */
#define addr_not_in_data_area 0x4 /* a pointer leads to nothing of the graph's data: NULL is written */
#define addr_in_mixed_block 0x8   /* a pointer leads to a block that is not of vertices alone, or of arcs alone: NULL */
#define bad_string_chars 0x10     /* bytes that no file has are written as `?` */
#define ignored_data 0x20         /* a field of type Z is not 0 */

/* The graph of the file named f, which is the current one from now on; NULL and panic_code where there is none. */
extern Graph *restore_graph(char *f);

#ifdef __cplusplus
}
#endif

#endif
