/* engine [ROUNDS]: the C library beside an older one and the original Rust, where they are linked: the same runs in turn, batch by batch; the least time of ROUNDS batches each,
 * less that of the callbacks alone. */
#include "bench.h"
#include "pozkerrin.h"

#include <stdio.h>
#include <stdlib.h>
#include <string.h>

enum { QUESTIONS = PKR_NO_QUESTION, INNER = 0, LOOP, PSI, D_PSI, KINDS };
static const callbacks *volatile chosen = &quadratic;

/* The sides, by kind of run. */
static run_by *const library[KINDS] = {library_inner, library_loop, library_psi, library_d_psi};
#ifdef HAVE_OLD
static run_by *const old[KINDS] = {old_inner, old_loop, old_psi, old_d_psi};
#endif
#ifdef HAVE_RUST
static run_by_rust *const rust[KINDS] = {rust_inner, rust_loop, rust_psi, rust_d_psi};
static void *cache;
#endif

static void by_library(int kind, const callbacks *c, const task *t, result *r) { library[kind](c, t, r, NULL); }
#ifdef HAVE_OLD
static void by_old(int kind, const callbacks *c, const task *t, result *r) { old[kind](c, t, r, NULL); }
#endif
#ifdef HAVE_RUST
static void by_rust(int kind, const callbacks *c, const task *t, result *r) { rust[kind](cache, c, t, r); }
#endif

typedef struct {
  const char *name;
  void (*solve)(int kind, const callbacks *c, const task *t, result *r);
} side;

static const side sides[] = {
    {"C library", by_library},
#ifdef HAVE_OLD
    {"older C library", by_old},
#endif
#ifdef HAVE_RUST
    {"Rust", by_rust},
#endif
};
enum { SIDES = sizeof sides / sizeof *sides };

/* The callbacks of one run alone, as often as they were asked, at points that stand still. */
static void callbacks_alone(int kind, const callbacks *c, const task *t, const size_t *asked) {
  double at[64], u[64], v[64], xi[33];
  volatile double sink = 0;
  memcpy(at, t->u, sizeof at);
  memcpy(u, t->u, sizeof u);
  memcpy(xi, t->xi, sizeof xi);
  for (size_t i = 0; i < asked[PKR_COST] + asked[PKR_LAST_COST]; i++) sink = kind == LOOP ? c->psi(at, xi, t->n) : c->cost(at, t->n);
  for (size_t i = 0; i < asked[PKR_GRADIENT]; i++) kind == LOOP ? c->d_psi(at, xi, v, t->n) : c->gradient(at, v, t->n);
  for (size_t i = 0; i < asked[PKR_PROJECT]; i++) c->project(at, v, t->n);
  for (size_t i = 0; i < asked[PKR_DIRECTION] + asked[PKR_DIRECTION_FORGET]; i++) c->direction(0, at, u, v, t->n);
  for (size_t i = 0; i < asked[PKR_F1]; i++) c->f1(at, v, t->n);
  for (size_t i = 0; i < asked[PKR_F2]; i++) c->f2(at, v, t->n);
  for (size_t i = 0; i < asked[PKR_PROJECT_C]; i++) c->project_c(at, v, t->n1);
  for (size_t i = 0; i < asked[PKR_JF1T]; i++) c->jf1t(at, u, v, t->n);
  for (size_t i = 0; i < asked[PKR_JF2T]; i++) c->jf2t(at, u, v, t->n);
  (void)sink;
}

static void least_of(double *least, double began, size_t times) {
  const double each = (now_ns() - began) / (double)times;
  if (each < *least) *least = each;
}

static void compare(int kind, const char *name, size_t n, size_t rounds) {
  task t = quadratic_task(n);
  const callbacks *c = chosen;
  result results[SIDES];
  size_t asked[QUESTIONS] = {0}, answers = 0;
  double least[SIDES], alone = 1e30;
  if (kind >= PSI) t.xi[0] = 2, t.xi[1] = 0.3, t.xi[2] = -0.2;
#ifdef HAVE_RUST
  cache = kind == LOOP ? rust_loop_new(&t) : rust_inner_new(&t);
#endif
  memset(results, 0, sizeof results);
  library[kind](c, &t, &results[0], asked);
  for (size_t s = 0; s < SIDES; s++) {
    least[s] = 1e30;
    sides[s].solve(kind, c, &t, &results[s]);
    if (memcmp(&results[0], &results[s], sizeof *results) != 0) {
      fprintf(stderr, "bench: n = %zu, %s: the results of %s differ\n", n, name, sides[s].name);
      exit(1);
    }
  }
  for (size_t i = 0; i < QUESTIONS; i++) answers += asked[i];
  const size_t times = 400000 / (answers * (20 + n)) + 1;
  for (size_t i = 0; i < rounds; i++) {
    double began;
    for (size_t s = 0; s < SIDES; s++) {
      began = now_ns();
      for (size_t j = 0; j < times; j++) sides[s].solve(kind, c, &t, &results[s]);
      least_of(&least[s], began, times);
    }
    began = now_ns();
    for (size_t j = 0; j < times; j++) callbacks_alone(kind, c, &t, asked);
    least_of(&alone, began, times);
  }
  printf("| %s | %zu | %zu | %.2f |", name, n, answers, alone / 1000);
  for (size_t s = 0; s < SIDES; s++) printf(" %.2f | %.1f |", least[s] / 1000, (least[s] - alone) / (double)answers);
  for (size_t s = 1; s < SIDES; s++) printf(" **%.2f** |", (least[0] - alone) / (least[s] - alone));
  puts("");
}

int main(int words, char **word) {
  static const char *const names[KINDS] = {"inner solve", "loop", "psi", "d_psi"};
  static const size_t sizes[] = {4, 16, 24, 64};
  const size_t rounds = words > 1 ? strtoul(word[1], NULL, 10) : 2000;
  printf("| | n | answers | callbacks alone, µs |");
  for (size_t s = 0; s < SIDES; s++) printf(" %s, µs a run | its engine, ns an answer |", sides[s].name);
  for (size_t s = 1; s < SIDES; s++) printf(" engine, C library / %s |", sides[s].name);
  printf("\n|---|---|---|---|");
  for (size_t s = 0; s < SIDES; s++) printf("---|---|");
  for (size_t s = 1; s < SIDES; s++) printf("---|");
  puts("");
  for (int kind = 0; kind < KINDS; kind++) {
    for (size_t i = 0; i < sizeof sizes / sizeof *sizes; i++) compare(kind, names[kind], sizes[i], rounds);
  }
  return 0;
}
