/* What a plain program in C takes for three listings, to compare with: the moves of rooks, of bishops and of queens on a
   board of 80 by 80, where the queens' graph is the union of the other two. bench/table.py has the first and the last. Its
   graphs are made and kept as sgb's: a list of arc records for each vertex, two records with consecutive numbers for an
   edge. Parallel edges are merged by a mark for each vertex. It writes what sgb writes, but for the head.

     cc -O2 -DLISTS=1 -o union bench/union.c
     time ./union rooks > /dev/null; time ./union bishops > /dev/null; time ./union queens > /dev/null
     time ./union unbuilt > /dev/null
     ./union rooks | cmp - <(./sgb list "board(80,80,0,0,-1,0,0)" | tail -n +5)

   With `unbuilt` the queens' graph is made from the moves alone, without the graphs of rooks and bishops: what a union would
   take if its operands were not built.

   LISTS is how many lists are followed side by side, each by a step in turn: with 1 each is followed to its end before
   the next, with 4 the processor waits for four records at once. */

#include <stdint.h>
#include <stdio.h>
#include <stdlib.h>
#include <string.h>

enum { SIDE = 80, VERTICES = SIDE * SIDE, MOST_ARCS = 8 * SIDE };
#define NONE UINT64_MAX

typedef struct {
  int64_t len;
  uint64_t next;
  uint32_t kind, tip;
} Record;

typedef struct {
  Record *records;
  size_t m, room;
  uint64_t first[VERTICES];
} Graph;

typedef struct {
  size_t count;
  uint32_t tip[MOST_ARCS];
  int64_t len[MOST_ARCS];
} List;

static Graph *new_graph(void) {
  Graph *g = malloc(sizeof *g);
  g->records = NULL;
  g->m = g->room = 0;
  for (int v = 0; v < VERTICES; v++) g->first[v] = NONE;
  return g;
}

static void add_edge(Graph *g, uint32_t low, uint32_t high, int64_t len) {
  if (g->m + 2 > g->room) {
    g->room = g->room ? 2 * g->room : 1024;
    g->records = realloc(g->records, g->room * sizeof(Record));
  }
  g->records[g->m] = (Record){len, g->first[low], 0, high};
  g->records[g->m + 1] = (Record){len, g->first[high], 0, low};
  g->first[low] = g->m;
  g->first[high] = g->m + 1;
  g->m += 2;
}

/* the moves any number of times by one of two steps, each to a later vertex */
static Graph *board(int steps[2][2]) {
  Graph *g = new_graph();
  for (int s = 0; s < 2; s++)
    for (int x = 0; x < SIDE; x++)
      for (int y = 0; y < SIDE; y++)
        for (int times = 1;; times++) {
          int a = x + times * steps[s][0], b = y + times * steps[s][1];
          if (a < 0 || b < 0 || a >= SIDE || b >= SIDE) break;
          add_edge(g, x * SIDE + y, a * SIDE + b, times);
        }
  return g;
}

/* the lists of the vertices from v on, LISTS of them */
static void follow(const Graph *g, uint32_t v, List *lists) {
  uint64_t at[LISTS];
  for (int i = 0; i < LISTS; i++) {
    at[i] = v + i < VERTICES ? g->first[v + i] : NONE;
    lists[i].count = 0;
  }
  for (int more = 1; more;) {
    more = 0;
    for (int i = 0; i < LISTS; i++) {
      if (at[i] == NONE) continue;
      const Record *record = &g->records[at[i]];
      lists[i].tip[lists[i].count] = record->tip;
      lists[i].len[lists[i].count++] = record->len;
      at[i] = record->next;
      more = 1;
    }
  }
}

/* adds the edges from v to the tips of these two lists, one for each tip, with the least length */
static void add_merged(Graph *made, uint32_t v, const List *of_g, const List *of_h) {
  static List left;
  static uint32_t mark[VERTICES], place[VERTICES];
  left.count = 0;
  for (int second = 0; second < 2; second++) {
    const List *list = second ? of_h : of_g;
    for (size_t i = 0; i < list->count; i++) {
      uint32_t tip = list->tip[i];
      if (tip < v) continue;
      if (mark[tip] != v + 1) {
        mark[tip] = v + 1;
        place[tip] = left.count;
        left.tip[left.count] = tip;
        left.len[left.count++] = list->len[i];
      } else if (list->len[i] < left.len[place[tip]]) {
        left.len[place[tip]] = list->len[i];
      }
    }
  }
  for (size_t i = 0; i < left.count; i++) add_edge(made, v, left.tip[i], left.len[i]);
}

static Graph *merged_union(const Graph *g, const Graph *h) {
  static List of_g[LISTS], of_h[LISTS];
  Graph *made = new_graph();
  for (uint32_t v = 0; v < VERTICES; v++) {
    if (v % LISTS == 0) follow(g, v, of_g), follow(h, v, of_h);
    add_merged(made, v, &of_g[v % LISTS], &of_h[v % LISTS]);
  }
  return made;
}

/* the moves from v by these steps, as they stand on the list of the board's graph */
static void moves_from(uint32_t v, int steps[2][2], List *list) {
  list->count = 0;
  for (int s = 1; s >= 0; s--) {
    int most = 0;
    for (;; most++) {
      int a = (int)v / SIDE + (most + 1) * steps[s][0], b = (int)v % SIDE + (most + 1) * steps[s][1];
      if (a < 0 || b < 0 || a >= SIDE || b >= SIDE) break;
    }
    for (int times = most; times > 0; times--) {
      list->tip[list->count] = ((int)v / SIDE + times * steps[s][0]) * SIDE + (int)v % SIDE + times * steps[s][1];
      list->len[list->count++] = times;
    }
  }
}

static Graph *union_of_moves(int straight[2][2], int slanted[2][2]) {
  static List of_g, of_h;
  Graph *made = new_graph();
  for (uint32_t v = 0; v < VERTICES; v++) {
    moves_from(v, straight, &of_g);
    moves_from(v, slanted, &of_h);
    add_merged(made, v, &of_g, &of_h);
  }
  return made;
}

static char held[1 << 16];
static size_t count;

static void put(const char *bytes, size_t n) {
  if (count + n > sizeof held) fwrite(held, 1, count, stdout), count = 0;
  memcpy(held + count, bytes, n);
  count += n;
}

static void list(const Graph *g) {
  static List lists[LISTS];
  static char name[VERTICES][8];
  static int length[VERTICES];
  for (int v = 0; v < VERTICES; v++) length[v] = sprintf(name[v], "%d.%d", v / SIDE, v % SIDE);
  setvbuf(stdout, NULL, _IONBF, 0);
  for (uint32_t v = 0; v < VERTICES; v++) {
    if (v % LISTS == 0) follow(g, v, lists);
    put(name[v], length[v]);
    put("\n", 1);
    const List *arcs = &lists[v % LISTS];
    for (size_t i = 0; i < arcs->count; i++) {
      char digits[20];
      int start = 20;
      for (int64_t rest = arcs->len[i]; rest || start == 20; rest /= 10) digits[--start] = '0' + rest % 10;
      put("  -> ", 5);
      put(name[arcs->tip[i]], length[arcs->tip[i]]);
      put(", length ", 9);
      put(digits + start, 20 - start);
      put("\n", 1);
    }
  }
  fwrite(held, 1, count, stdout);
}

int main(int words, char **word) {
  int straight[2][2] = {{0, 1}, {1, 0}}, slanted[2][2] = {{1, 1}, {1, -1}};
  if (words != 2) return 1;
  if (strcmp(word[1], "rooks") == 0) {
    list(board(straight));
  } else if (strcmp(word[1], "bishops") == 0) {
    list(board(slanted));
  } else if (strcmp(word[1], "unbuilt") == 0) {
    list(union_of_moves(straight, slanted));
  } else {
    Graph *g = board(straight), *h = board(slanted), *both = merged_union(g, h);
    free(g->records);
    free(h->records);
    list(both);
  }
  return 0;
}
