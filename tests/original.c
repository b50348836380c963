/* Makes the calls of a script on Knuth's own Stanford GraphBase, Debian's package `sgb`, for tests/original.py to compare.

   It reads lines of the script language from standard input, and answers each at once: the generator's, standard and random graphs,
   combinations, `arc`, `edge`, `label`, `id`, `types`, `set` and `drop`. Of its own are `save G FILE` and `restore NAME FILE`; `loose G V
   LEN`, an arc to V that stands in no list and takes a number; and `show G`, which is like the script's but without the numbers of arcs.
   There a field that names an arc says `@V.I`, for the arc at place I of V's list, or `@` for one that stands in no list.

   Arcs and edges are made in the graph that was made last. `panic P` stands for a call that was refused with the code P. With an argument
   it answers all lines at the end, for who measures time. */
#include <stdio.h>
#include <stdlib.h>
#include <string.h>
#include "gb_graph.h"
#include "gb_basic.h"
#include "gb_flip.h"
#include "gb_rand.h"
#include "gb_save.h"

#define MOST_WORDS 16
#define MOST_ARCS 4096

static struct { char name[40]; Graph *graph; } table[64];
static int graphs;
/* The arcs that `arc`, `edge` and `loose` made in the last graph, by number. */
static Arc *arcs[MOST_ARCS];
static int made;

static char *words[MOST_WORDS];
static int count;

static long number(int k) { return k < count ? atol(words[k]) : 0; }

static Graph *find(const char *name) {
  for (int k = 0; k < graphs; k++)
    if (!strcmp(table[k].name, name)) return table[k].graph;
  return NULL;
}

static void keep(const char *name, Graph *g) {
  if (!g) { printf("panic %ld\n", panic_code); return; }
  if (graphs == 64 || strlen(name) >= sizeof table[0].name) { puts("no place"); return; }
  strcpy(table[graphs].name, name);
  table[graphs++].graph = g;
  made = 0;
  printf("%s: %ld vertices, %ld arcs\n", name, g->n, g->m);
}

/* Bytes that a text of a script may not hold are written in octal digits. */
static void print_text(const char *s) {
  putchar('"');
  for (; *s; s++)
    if (*s >= 32 && *s < 127 && *s != '"' && *s != '\\') putchar(*s); else printf("\\%03o", (unsigned char)*s);
  putchar('"');
}

static void print_arc(Graph *g, Arc *wanted) {
  for (Vertex *v = g->vertices; v < g->vertices + g->n; v++) {
    int place = 0;
    for (Arc *a = v->arcs; a; a = a->next, place++)
      if (a == wanted) { printf("@%ld.%d", (long)(v - g->vertices), place); return; }
  }
  putchar('@');
}

static void print_field(Graph *g, const char *name, char letter, util value) {
  if (letter == 'Z' || !value.I || (letter == 'S' && !*value.S)) return;
  printf(" %s=", name);
  if (letter == 'I' || (letter != 'S' && value.I == 1)) printf("%ld", value.I);
  else if (letter == 'V') printf("V%ld", (long)(value.V - g->vertices));
  else if (letter == 'A') print_arc(g, value.A);
  else if (letter == 'S') print_text(value.S);
  else putchar('?');
}

static void show(Graph *g) {
  const char *t = g->util_types;
  if (g->n > 65535 || g->m > 1000000) { puts("too large to show"); return; }
  print_text(g->id);
  printf(" %s\n%ld vertices, %ld arcs\nG", t, g->n, g->m);
  print_field(g, "uu", t[8], g->uu), print_field(g, "vv", t[9], g->vv), print_field(g, "ww", t[10], g->ww);
  print_field(g, "xx", t[11], g->xx), print_field(g, "yy", t[12], g->yy), print_field(g, "zz", t[13], g->zz);
  putchar('\n');
  for (Vertex *v = g->vertices; v < g->vertices + g->n; v++) {
    printf("V%ld ", (long)(v - g->vertices));
    print_text(v->name);
    print_field(g, "u", t[0], v->u), print_field(g, "v", t[1], v->v), print_field(g, "w", t[2], v->w);
    print_field(g, "x", t[3], v->x), print_field(g, "y", t[4], v->y), print_field(g, "z", t[5], v->z);
    putchar('\n');
    for (Arc *a = v->arcs; a; a = a->next) {
      if ((unsigned long)a->tip < 2) printf("  %ld %ld", (long)a->tip, a->len);
      else printf("  V%ld %ld", (long)(a->tip - g->vertices), a->len);
      print_field(g, "a", t[6], a->a), print_field(g, "b", t[7], a->b);
      putchar('\n');
    }
  }
}

/* The field of a vertex, an arc or the graph: PLACE and FIELD as in the script. */
static util *field(Graph *g, const char *place, const char *name) {
  long k = atol(place + 1);
  if (*place == 'G') return &g->uu + (name[0] - 'u');
  if (*place == 'A') return k < made ? (name[0] == 'a' ? &arcs[k]->a : &arcs[k]->b) : NULL;
  return k < g->n ? &g->vertices[k].u + (name[0] - 'u') : NULL;
}

static void set(Graph *g, util *f, char *value) {
  long k = atol(value + 1);
  if (!f) { puts("no place"); return; }
  if (*value == '"') f->S = gb_save_string(value + 1);
  else if (*value == 'V') f->V = g->vertices + k;
  else if (*value == 'A') f->A = k < made ? arcs[k] : NULL;
  else f->I = atol(value);
  puts("ok");
}

/* Makes an edge, and keeps its two arcs under the numbers that the script gives them: the one from the lesser end first. */
static void edge(Vertex *u, Vertex *v, long len) {
  gb_new_edge(u, v, len);
  Arc *first = u <= v ? u->arcs : v->arcs;
  arcs[made++] = first;
  arcs[made++] = u == v ? first->next : u < v ? v->arcs : u->arcs;
}

/* Splits a line into words. A text is one word, without its second quote. */
static void split(char *at) {
  for (count = 0; count < MOST_WORDS;) {
    while (*at == ' ' || *at == '\n') at++;
    if (!*at) return;
    words[count++] = at;
    char *end = *at == '"' ? strchr(at + 1, '"') : at + strcspn(at, " \n");
    if (!end || !*end) return;
    *end = 0;
    at = end + 1;
  }
}

static void answer(void) {
  const char *c = words[0], *name = count > 1 ? words[1] : "";
  Graph *g = find(name), *left = count > 2 ? find(words[2]) : NULL, *right = count > 3 ? find(words[3]) : NULL;
#define IS(word) (!strcmp(c, word))
#define N(k) number(k)
  panic_code = gb_trouble_code = 0;
  if (IS("seed")) gb_init_rand(N(1)), puts("ok");
  else if (IS("next")) printf("%ld\n", gb_next_rand());
  else if (IS("unif")) printf("%ld\n", gb_unif_rand(N(1)));
  else if (IS("graph")) keep(name, gb_new_graph(N(2)));
  else if (IS("board")) keep(name, board(N(2), N(3), N(4), N(5), N(6), N(7), N(8)));
  else if (IS("simplex")) keep(name, simplex(N(2), N(3), N(4), N(5), N(6), N(7), N(8)));
  else if (IS("subsets"))
    keep(name, subsets(N(2), N(3), N(4), N(5), N(6), N(7), count > 8 ? strtoul(words[8], NULL, 10) : 0, N(9)));
  else if (IS("perms")) keep(name, perms(N(2), N(3), N(4), N(5), N(6), N(7), N(8)));
  else if (IS("binary")) keep(name, binary(N(2), N(3), N(4)));
  else if (IS("random")) keep(name, random_graph(N(2), N(3), N(4), N(5), N(6), NULL, NULL, N(7), N(8), N(9)));
  else if (IS("complement")) keep(name, complement(left, N(3), N(4), N(5)));
  else if (IS("gunion")) keep(name, gunion(left, right, N(4), N(5)));
  else if (IS("intersection")) keep(name, intersection(left, right, 0, N(4)));
  else if (IS("product")) keep(name, product(left, right, N(4), N(5)));
  else if (IS("induced")) keep(name, induced(left, count > 3 ? words[3] + 1 : "", N(4), N(5), N(6)));
  else if (IS("restore")) keep(name, restore_graph(words[2]));
  else if (!g) puts("no graph");
  else if (IS("lengths")) {
    long code = random_lengths(g, N(2), N(3), N(4), NULL, N(5));
    if (code) printf("panic %ld\n", code); else puts("ok");
  } else if (IS("save")) printf("saved %ld\n", save_graph(g, words[2]));
  else if (IS("show")) show(g);
  else if (IS("types")) memcpy(g->util_types, words[2], 14), puts("ok");
  else if (IS("label")) g->vertices[N(2)].name = gb_save_string(words[3] + 1), puts("ok");
  else if (IS("id")) strncpy(g->id, words[2] + 1, ID_FIELD_SIZE - 1), puts("ok");
  else if (IS("set")) set(g, field(g, words[2], words[3]), words[4]);
  else if (made + 2 > MOST_ARCS) puts("no place");
  else if (IS("arc")) gb_new_arc(g->vertices + N(2), g->vertices + N(3), N(4)), arcs[made++] = g->vertices[N(2)].arcs, puts("ok");
  else if (IS("edge")) edge(g->vertices + N(2), g->vertices + N(3), N(4)), puts("ok");
  else if (IS("loose")) {
    Arc *a = arcs[made++] = gb_virgin_arc();
    a->tip = g->vertices + N(2), a->len = N(3), puts("ok");
  } else if (IS("drop")) {
    int k = 0;
    while (table[k].graph != g) k++;
    gb_recycle(g), table[k] = table[--graphs], puts("ok");
  } else puts("unknown");
}

int main(int arguments, char **unused) {
  static char line[10000];
  (void)unused;
  gb_init_rand(0);
  while (fgets(line, sizeof line, stdin)) {
    split(line);
    if (!count || words[0][0] == '#') continue;
    answer();
    if (arguments == 1) fflush(stdout);
  }
  return 0;
}
