/* Answers as sgb does, by the published library of the Stanford GraphBase, so that the two can be compared.
 *
 *   make graphbase GRAPHBASE=FOLDER
 *   graphbase names|list|save|unhashed|file EXPRESSION
 *   graphbase flip "flip(START,SKIP,COUNT,M)"
 *
 * EXPRESSION is one of sgb's. names, list and save write what sgb writes. Of save, only the layout is this program's: the
 * records are the library's, those on no list are left out, and they are numbered in the order in which they were made.
 * unhashed is save without the hash links that `simplex` leaves in two fields. file writes what save_graph writes.
 * `stdin` is the graph that restore_graph makes of the file on standard input.
 *
 * Status 1 and a line with the library's panic_code: the library refused. 2: the text is no expression. 3: a device failed.
 * 4 and a reason: the library has no such call. */

#include <ctype.h>
#include <stdio.h>
#include <stdlib.h>
#include <string.h>
#ifdef _WIN32
#include <fcntl.h>
#include <io.h>
#endif

#include "gb_graph.h"
#include "gb_basic.h"
#include "gb_flip.h"
#include "gb_save.h"

#define MOST_DIGITS 18
#define DEEPEST 64
#define LINE 79

/* ------------------------------------------------------------------------------------------------------------------- */
/* Ends */

static void fail(int status, const char *line)
{
  fprintf(stderr, "graphbase: %s\n", line);
  exit(status);
}

static void *room(size_t bytes)
{
  void *found = calloc(bytes ? bytes : 1, 1);
  if (!found) fail(3, "out of memory");
  return found;
}

/* The first refusal: the library's code, or a reason why it cannot be asked. The reader goes on behind it. */
static long refused;
static const char *reason;

static void cannot(const char *why)
{
  if (!refused && !reason) reason = why;
}

static Graph *made(Graph *g)
{
  if (!g && !refused && !reason) refused = panic_code ? panic_code : alloc_fault;
  return g;
}

/* Whether a call can be made: all before it went well. */
static int sound(void) { return !refused && !reason; }

/* ------------------------------------------------------------------------------------------------------------------- */
/* Expressions */

static const char *at; /* what is left of the text */
static int depth;

static void bad(void) { fail(2, "no expression"); }

static int is_there(const char *word)
{
  size_t length = strlen(word);
  if (strncmp(at, word, length) != 0) return 0;
  at += length;
  return 1;
}

static void expect(const char *word)
{
  if (!is_there(word)) bad();
}

static int digits(int (*is_one)(int))
{
  int count = 0;
  while (is_one((unsigned char)at[count])) count++;
  return count;
}

static long number(void)
{
  int minus = is_there("-"), count = digits(isdigit), k;
  long value = 0;
  if (count < 1 || count > MOST_DIGITS) bad();
  for (k = 0; k < count; k++) {
    if (sizeof(long) < 8 && value > 214748363L) cannot("a number wider than a long");
    else value = 10 * value + (at[k] - '0');
  }
  at += count;
  return minus ? -value : value;
}

static long last_number(void)
{
  long value = number();
  expect(")");
  return value;
}

static long comma_number(void)
{
  expect(",");
  return number();
}

static long last_comma_number(void)
{
  expect(",");
  return last_number();
}

static unsigned long not_negative(long value)
{
  if (value < 0) cannot("a negative number where it has an unsigned one");
  return (unsigned long)value;
}

/* size_bits: digits, or 0x and up to 32 hexadecimal digits */
static unsigned long bits(void)
{
  unsigned long value = 0;
  int count, k, is_hex = is_there("0x");
  count = digits(is_hex ? isxdigit : isdigit);
  if (count < 1 || count > (is_hex ? 32 : MOST_DIGITS)) bad();
  for (k = 0; k < count; k++) {
    unsigned long base = is_hex ? 16 : 10;
    int digit = tolower((unsigned char)at[k]);
    if (value > (~0UL - 15) / base) cannot("size_bits wider than a long");
    value = base * value + (unsigned long)(isdigit(digit) ? digit - '0' : digit - 'a' + 10);
  }
  at += count;
  return value;
}

static Graph *expression(void);

/* restore_graph and save_graph want the name of a file: that by which Linux opens one that is open and has no other. */
static FILE *file;
#ifdef _WIN32
static char file_name[L_tmpnam];

static void remove_file(void)
{
  if (file) fclose(file);
  remove(file_name);
}

static FILE *new_file(void)
{
  if (!file && (!tmpnam(file_name) || atexit(remove_file) != 0)) fail(3, "no temporary file");
  if (file) fclose(file);
  file = fopen(file_name, "w+b");
  if (!file) fail(3, "no temporary file");
  return file;
}
#else
static char file_name[32];

static FILE *new_file(void)
{
  if (file) fclose(file);
  file = tmpfile();
  if (!file) fail(3, "no temporary file");
  sprintf(file_name, "/dev/fd/%d", fileno(file));
  return file;
}
#endif

static void copy(FILE *in, FILE *out)
{
  char buffer[4096];
  size_t got;
  while ((got = fread(buffer, 1, sizeof buffer, in)) > 0)
    if (fwrite(buffer, 1, got, out) != got) fail(3, "write fault");
  if (ferror(in)) fail(3, "read fault");
}

/* The graph of the file on standard input. */
static Graph *from_input(void)
{
  if (!file) {
    copy(stdin, new_file());
    if (fflush(file) != 0) fail(3, "write fault");
  }
  return sound() ? made(restore_graph(file_name)) : NULL;
}

static Graph *boards(void)
{
  long n1 = number(), n2 = comma_number(), n3 = comma_number(), n4 = comma_number();
  long piece = comma_number(), wrap = comma_number(), directed = last_comma_number();
  return sound() ? made(board(n1, n2, n3, n4, piece, wrap, directed)) : NULL;
}

static Graph *simplexes(void)
{
  unsigned long n = not_negative(number());
  long n0 = comma_number(), n1 = comma_number(), n2 = comma_number(), n3 = comma_number(), n4 = comma_number();
  long directed = last_comma_number();
  return sound() ? made(simplex(n, n0, n1, n2, n3, n4, directed)) : NULL;
}

static Graph *sets(void)
{
  unsigned long n = not_negative(number()), size_bits;
  long n0 = comma_number(), n1 = comma_number(), n2 = comma_number(), n3 = comma_number(), n4 = comma_number();
  long directed;
  expect(",");
  size_bits = bits();
  directed = last_comma_number();
  return sound() ? made(subsets(n, n0, n1, n2, n3, n4, size_bits, directed)) : NULL;
}

static Graph *sets_disjoint(void)
{
  long n = number(), k = last_comma_number();
  not_negative(k);
  return sound() ? made(disjoint_subsets(n, k)) : NULL;
}

static Graph *two(Graph *(*operation)(Graph *, Graph *, long, long))
{
  Graph *g = expression(), *gg;
  long first, directed;
  expect(",");
  gg = expression();
  first = comma_number();
  directed = last_comma_number();
  return sound() ? made(operation(g, gg, first, directed)) : NULL;
}

static Graph *union_of(Graph *g, Graph *gg, long multi, long directed) { return gunion(g, gg, multi, directed); }
static Graph *meet_of(Graph *g, Graph *gg, long multi, long directed) { return intersection(g, gg, multi, directed); }
static Graph *product_of(Graph *g, Graph *gg, long type, long directed) { return product(g, gg, type, directed); }

static Graph *complements(void)
{
  Graph *g = expression();
  long copy = comma_number(), self = comma_number(), directed = last_comma_number();
  return sound() ? made(complement(g, copy, self, directed)) : NULL;
}

static Graph *line_graphs(void)
{
  Graph *g = expression();
  long directed = last_comma_number();
  return sound() ? made(lines(g, directed)) : NULL;
}

/* One entry of a list, into the fields of a vertex in which `induced` looks for it. */
static void entry(Vertex *v)
{
  if (*at == '-' || isdigit((unsigned char)*at)) {
    long copies = number();
    if (copies >= IND_GRAPH) cannot("an entry of a billion or more, which stands for a graph");
    if (v) v->ind = copies;
  } else {
    Graph *g = expression();
    if (v) {
      v->ind = IND_GRAPH;
      v->subst = g;
    }
  }
}

static Graph *induced_graphs(void)
{
  static char none[] = "";
  Graph *g = expression();
  long count = 0, n = g ? g->n : 0, self, multi, directed;
  expect(",[");
  if (!is_there("]")) {
    do {
      entry(count < n ? g->vertices + count : NULL);
      count++;
    } while (is_there(","));
    expect("]");
  }
  if (g && count != n) cannot("a list of too few or too many entries");
  self = comma_number();
  multi = comma_number();
  directed = last_comma_number();
  return sound() ? made(induced(g, none, self, multi, directed)) : NULL;
}

/* These two are induced graphs: a billion vertices in the place of one would be taken for a graph. */
static unsigned long few(long value)
{
  if (value >= IND_GRAPH) cannot("an entry of a billion or more, which stands for a graph");
  return not_negative(value);
}

static Graph *complete_bipartite(void)
{
  unsigned long n1 = few(number()), n2 = few(comma_number());
  long directed = last_comma_number();
  return sound() ? made(bi_complete(n1, n2, directed)) : NULL;
}

static Graph *wheels(void)
{
  unsigned long n = not_negative(number()), n1 = few(comma_number());
  long directed = last_comma_number();
  return sound() ? made(wheel(n, n1, directed)) : NULL;
}

/* The five boards of one dimension. */
enum { COMPLETE, TRANSITIVE, EMPTY, CIRCUIT, CYCLE };

static Graph *one_dimension(int which)
{
  long n = last_number();
  if (!sound()) return NULL;
  switch (which) {
  case COMPLETE: return made(complete(n));
  case TRANSITIVE: return made(transitive(n));
  case EMPTY: return made(empty(n));
  case CIRCUIT: return made(circuit(n));
  default: return made(cycle(n));
  }
}

static Graph *form(void)
{
  if (is_there("stdin")) return from_input();
  if (is_there("board(")) return boards();
  if (is_there("simplex(")) return simplexes();
  if (is_there("subsets(")) return sets();
  if (is_there("complete(")) return one_dimension(COMPLETE);
  if (is_there("transitive(")) return one_dimension(TRANSITIVE);
  if (is_there("empty(")) return one_dimension(EMPTY);
  if (is_there("circuit(")) return one_dimension(CIRCUIT);
  if (is_there("cycle(")) return one_dimension(CYCLE);
  if (is_there("disjoint_subsets(")) return sets_disjoint();
  if (is_there("petersen()")) return sound() ? made(petersen()) : NULL;
  if (is_there("complement(")) return complements();
  if (is_there("gunion(")) return two(union_of);
  if (is_there("intersection(")) return two(meet_of);
  if (is_there("lines(")) return line_graphs();
  if (is_there("product(")) return two(product_of);
  if (is_there("induced(")) return induced_graphs();
  if (is_there("bi_complete(")) return complete_bipartite();
  if (is_there("wheel(")) return wheels();
  bad();
  return NULL;
}

static Graph *expression(void)
{
  Graph *g;
  if (++depth > DEEPEST) bad();
  g = form();
  depth--;
  return g;
}

/* ------------------------------------------------------------------------------------------------------------------- */
/* Listings */

static void write_names(Graph *g)
{
  Vertex *v;
  for (v = g->vertices; v < g->vertices + g->n; v++) printf("%s\n", v->name);
}

static void write_list(Graph *g)
{
  Vertex *v;
  Arc *a;
  printf("  The graph whose official name is\n%s\n  has %ld vertices and %ld arcs:\n\n", g->id, g->n, g->m);
  for (v = g->vertices; v < g->vertices + g->n; v++) {
    printf("%s\n", v->name);
    for (a = v->arcs; a; a = a->next) printf("  -> %s, length %ld\n", a->tip->name, a->len);
  }
}

/* ------------------------------------------------------------------------------------------------------------------- */
/* Files: the records in the order in which they were made */

typedef struct {
  char *first, *end;
  long age;
} Block;

typedef struct {
  Arc *arc;
  long age, number;
} Place;

static Place *places; /* in the order of addresses, once they are numbered */
static long places_count;

static int by_address(const void *one, const void *other)
{
  const Place *p = one, *q = other;
  return p->arc < q->arc ? -1 : p->arc > q->arc;
}

static int by_age(const void *one, const void *other)
{
  const Place *p = one, *q = other;
  if (p->age != q->age) return p->age < q->age ? -1 : 1;
  return by_address(one, other);
}

static int by_first(const void *one, const void *other)
{
  const Block *p = one, *q = other;
  return p->first < q->first ? -1 : p->first > q->first;
}

/* The blocks of the graph's data area. The area has the newest block first, and each block ends where the record stands
 * that tells of it. */
static Block *blocks_of(Graph *g, long *count)
{
  struct area_pointers *p;
  Block *blocks;
  long k = 0;
  for (p = *g->data, *count = 0; p; p = p->next) ++*count;
  blocks = room((size_t)*count * sizeof(Block));
  for (p = *g->data; p; p = p->next, k++) {
    blocks[k].first = p->first;
    blocks[k].end = (char *)p;
    blocks[k].age = *count - k;
  }
  qsort(blocks, (size_t)*count, sizeof(Block), by_first);
  return blocks;
}

static long age_of(Arc *a, Block *blocks, long count)
{
  long low = 0, high = count;
  while (low < high) {
    long middle = (low + high) / 2;
    if (blocks[middle].first <= (char *)a) low = middle + 1;
    else high = middle;
  }
  if (low == 0 || (char *)a >= blocks[low - 1].end) fail(3, "an arc outside the graph's data area");
  return blocks[low - 1].age;
}

static void number_arcs(Graph *g)
{
  long blocks_count, k;
  Block *blocks = blocks_of(g, &blocks_count);
  Vertex *v;
  Arc *a;
  for (v = g->vertices; v < g->vertices + g->n; v++)
    for (a = v->arcs; a; a = a->next) places_count++;
  places = room((size_t)places_count * sizeof(Place));
  for (v = g->vertices, k = 0; v < g->vertices + g->n; v++)
    for (a = v->arcs; a; a = a->next, k++) {
      places[k].arc = a;
      places[k].age = age_of(a, blocks, blocks_count);
    }
  qsort(places, (size_t)places_count, sizeof(Place), by_age);
  for (k = 0; k < places_count; k++) places[k].number = k;
  free(blocks);
}

static long number_of(Arc *a)
{
  Place wanted = {NULL, 0, 0}, *found;
  wanted.arc = a;
  found = bsearch(&wanted, places, (size_t)places_count, sizeof(Place), by_address);
  if (!found) fail(3, "a link to an arc on no list");
  return found->number;
}

/* ------------------------------------------------------------------------------------------------------------------- */
/* Files: lines and their checksum */

static const char order[] = "0123456789ABCDEFGHIJKLMNOPQRSTUVWXYZabcdefghijklmnopqrstuvwxyz_^~&@,;.:?!%#$+-*/|\\<=>()[]{}`'\" \n";
static long sum; /* of the lines that count */
static char line[LINE + 1];
static size_t line_length;
static char *waiting; /* a field whose comma is not decided yet */

static void add_to_sum(char byte)
{
  const char *place = strchr(order, byte);
  if (!byte || !place) fail(3, "a byte that no file can have");
  sum = (2 * sum + (long)(place - order)) % 1073741741L;
}

static void end_line(void)
{
  size_t k, length = line_length;
  printf("%.*s\n", (int)line_length, line);
  while (length > 0 && line[length - 1] == ' ') length--;
  if (line[0] != '*' || line_length == 0) {
    for (k = 0; k < length; k++) add_to_sum(line[k]);
    add_to_sum('\n');
  }
  line_length = 0;
}

static void put_piece(const char *text)
{
  size_t length = strlen(text);
  if (line_length + length > LINE) {
    if (line_length) end_line();
    while (length > LINE) {
      memcpy(line, text, LINE - 1);
      line[LINE - 1] = '\\';
      line_length = LINE;
      end_line();
      text += LINE - 1;
      length -= LINE - 1;
    }
  }
  memcpy(line + line_length, text, length);
  line_length += length;
}

static void put_waiting(const char *behind)
{
  if (waiting) {
    strcat(waiting, behind);
    put_piece(waiting);
    free(waiting);
    waiting = NULL;
  }
}

/* A field: with a letter or quotes around the text. */
static void field(const char *before, const char *text, const char *behind)
{
  put_waiting(",");
  waiting = room(strlen(before) + strlen(text) + strlen(behind) + 2);
  sprintf(waiting, "%s%s%s", before, text, behind);
}

static void number_field(const char *before, long value)
{
  char text[32];
  sprintf(text, "%ld", value);
  field(before, text, "");
}

static void end_record(void)
{
  put_waiting("");
  end_line();
}

static void arc_field(Arc *a)
{
  if (a) number_field("A", number_of(a));
  else field("", "0", "");
}

static void vertex_field(Graph *g, Vertex *v)
{
  if (!v || v == (Vertex *)1) field("", v ? "1" : "0", "");
  else if (v >= g->vertices && v < g->vertices + g->n) number_field("V", (long)(v - g->vertices));
  else fail(3, "a link to a vertex of another graph");
}

static void util_field(Graph *g, char type, util *value)
{
  switch (type) {
  case 'I': number_field("", value->I); break;
  case 'S': field("\"", value->S ? value->S : "", "\""); break;
  case 'V': vertex_field(g, value->V); break;
  case 'A': arc_field(value->A); break;
  case 'Z': break;
  default: fail(3, "a field of a type that no file has");
  }
}

static void write_file(Graph *g, const char *types)
{
  Vertex *v;
  Place *in_order;
  long k;
  number_arcs(g);
  in_order = room((size_t)places_count * sizeof(Place));
  memcpy(in_order, places, (size_t)places_count * sizeof(Place));
  qsort(places, (size_t)places_count, sizeof(Place), by_address);
  printf("* GraphBase graph (util_types %s,%ldV,%ldA)\n", types, g->n, places_count);
  field("\"", g->id, "\"");
  number_field("", g->n);
  number_field("", g->m);
  util_field(g, types[8], &g->uu);
  util_field(g, types[9], &g->vv);
  util_field(g, types[10], &g->ww);
  util_field(g, types[11], &g->xx);
  util_field(g, types[12], &g->yy);
  util_field(g, types[13], &g->zz);
  end_record();
  printf("* Vertices\n");
  for (v = g->vertices; v < g->vertices + g->n; v++) {
    field("\"", v->name, "\"");
    arc_field(v->arcs);
    util_field(g, types[0], &v->u);
    util_field(g, types[1], &v->v);
    util_field(g, types[2], &v->w);
    util_field(g, types[3], &v->x);
    util_field(g, types[4], &v->y);
    util_field(g, types[5], &v->z);
    end_record();
  }
  printf("* Arcs\n");
  for (k = 0; k < places_count; k++) {
    Arc *a = in_order[k].arc;
    vertex_field(g, a->tip);
    arc_field(a->next);
    number_field("", a->len);
    util_field(g, types[6], &a->a);
    util_field(g, types[7], &a->b);
    end_record();
  }
  printf("* Checksum %ld\n", sum);
}

/* What save_graph writes. Its anomalies are told on standard error. */
static void write_library_file(Graph *g)
{
  long anomalies;
  FILE *in;
  new_file();
  anomalies = save_graph(g, file_name);
  in = fopen(file_name, "rb");
  if (!in) fail(3, "no temporary file");
  copy(in, stdout);
  fclose(in);
  if (anomalies) fprintf(stderr, "anomalies 0x%lx\n", (unsigned long)anomalies);
}

/* ------------------------------------------------------------------------------------------------------------------- */

static void write_numbers(const char *text)
{
  long start, skip, count;
  long long m;
  at = text;
  expect("flip(");
  start = number();
  skip = comma_number();
  count = comma_number();
  m = last_comma_number();
  if (*at) bad();
  if (skip < 0 || count < 0 || m < 0 || m > 0x80000000LL) cannot("numbers of flip that are out of range");
  if (reason) return;
  gb_init_rand(start);
  while (skip-- > 0) (void)gb_next_rand();
  while (count-- > 0) printf("%ld\n", m ? gb_unif_rand((long)m) : gb_next_rand());
}

static void write_graph(const char *command, const char *text)
{
  Graph *g;
  char types[15];
  at = text;
  g = expression();
  if (*at) bad();
  if (!sound()) return;
  memcpy(types, g->util_types, sizeof types);
  types[14] = '\0';
  if (strcmp(command, "names") == 0) write_names(g);
  else if (strcmp(command, "list") == 0) write_list(g);
  else if (strcmp(command, "file") == 0) write_library_file(g);
  else {
    if (strcmp(command, "unhashed") == 0 && types[0] == 'V' && types[1] == 'V') types[0] = types[1] = 'Z';
    write_file(g, types);
  }
}

static int is_command(const char *word)
{
  static const char *const commands[] = {"names", "list", "save", "unhashed", "file", "flip"};
  size_t k;
  for (k = 0; k < sizeof commands / sizeof *commands; k++)
    if (strcmp(word, commands[k]) == 0) return 1;
  return 0;
}

int main(int count, char *words[])
{
#ifdef _WIN32
  /* no newline is turned into two bytes, and none back */
  _setmode(0, _O_BINARY);
  _setmode(1, _O_BINARY);
  _setmode(2, _O_BINARY);
#endif
  if (count != 3 || !is_command(words[1])) fail(2, "usage: graphbase names|list|save|unhashed|file|flip TEXT");
  if (strcmp(words[1], "flip") == 0) write_numbers(words[2]);
  else write_graph(words[1], words[2]);
  if (reason) {
    fprintf(stderr, "graphbase: not in GraphBase: %s\n", reason);
    return 4;
  }
  if (refused) {
    fprintf(stderr, "Something went wrong (panic code %ld)!\n", refused);
    return 1;
  }
  if (fflush(stdout) != 0 || ferror(stdout)) fail(3, "write fault");
  return 0;
}
