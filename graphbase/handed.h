/* Graphs handed to the proved library, and taken of it. */
#ifndef SGB_GRAPHBASE_HANDED_H
#define SGB_GRAPHBASE_HANDED_H

#include "gb_graph.h"
#include "sgb.h"

/* Opens a graph as an operand: its names, its lists, and which arcs lie side by side; utility fields and the id are left
 * out. The answer is a panic code, or 0. */
long sgb_open_operand(const Graph *g, sgb_graph *held);

/* The graph of what is held, which is closed; NULL and panic_code where the answer is no graph. */
Graph *sgb_taken(uint64_t answer, sgb_graph *held);

#endif
