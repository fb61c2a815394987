/* plans [ROUNDS]: the time of one kiln plan (24 periods) by each solver that is here, in turn, with the accuracy that it comes to. */
#include "bench.h"
#include "../../host/examples/kiln_model.h"
#include "../peers/peers.h"
#include "pozkerrin.h"

#include <math.h>
#include <stdio.h>
#include <stdlib.h>
#include <string.h>

enum { N = KILN_PERIODS, KINDS = 14 };

double projected_gradient(const double *u) {
  double g[N], p[N], sum = 0;
  kiln_gradient(u, g);
  for (size_t i = 0; i < N; i++) p[i] = u[i] - g[i];
  kiln_project(p, p);
  for (size_t i = 0; i < N; i++) sum = sum + (u[i] - p[i]) * (u[i] - p[i]);
  return sqrt(sum);
}

static double reached; /* the library's projected gradient, which the others are to reach */
static size_t asked[KINDS];

static void by_library(double *u, double tolerance, size_t memory, evaluations *e) {
  task t = kiln_task();
  result r;
  (void)tolerance, (void)memory;
  memset(asked, 0, sizeof asked);
  library_inner(&kiln, &t, &r, e ? asked : NULL);
  if (e) e->costs = asked[PKR_COST], e->gradients = asked[PKR_GRADIENT];
  memcpy(u, r.plan, N * sizeof *u);
}

#ifdef HAVE_RUST
static void by_rust(double *u, double tolerance, size_t memory, evaluations *e) {
  static void *cache;
  task t = kiln_task();
  result r;
  (void)tolerance, (void)memory;
  if (!cache) cache = rust_inner_new(&t);
  rust_inner(cache, &kiln, &t, &r);
  if (e) e->costs = asked[PKR_COST], e->gradients = asked[PKR_GRADIENT];
  memcpy(u, r.plan, N * sizeof *u);
}
#endif
#ifdef HAVE_DLIB
static void by_dlib(double *u, double tolerance, size_t memory, evaluations *e) {
  (void)tolerance;
  dlib_plan(u, reached, memory, e);
}
#endif

typedef struct {
  const char *name;
  void (*plan)(double *u, double tolerance, size_t memory, evaluations *e);
  int by_cost;    /* stops by a tolerance on the cost */
  int has_memory; /* may choose how many pairs it keeps */
  size_t memory;
  double tolerance, ns, plans[N];
  evaluations e;
} solver;

static solver solvers[] = {
    {.name = "Pozkerrin, C library", .plan = by_library},
#ifdef HAVE_RUST
    {.name = "the original Rust, same rule", .plan = by_rust},
#endif
#ifdef HAVE_DLIB
    {.name = "dlib `find_min_box_constrained`, L-BFGS", .plan = by_dlib, .has_memory = 1},
#endif
#ifdef HAVE_NLOPT
    {.name = "NLopt `LD_LBFGS`", .plan = nlopt_lbfgs_plan, .by_cost = 1, .has_memory = 1},
    {.name = "NLopt `LD_SLSQP`", .plan = nlopt_slsqp_plan, .by_cost = 1},
#endif
};
enum { SOLVERS = sizeof solvers / sizeof *solvers };

static void start(double *u) {
  for (size_t i = 0; i < N; i++) u[i] = 0.5;
}

/* One plan with its accuracy. */
static double once(solver *s) {
  memset(&s->e, 0, sizeof s->e);
  start(s->plans);
  s->plan(s->plans, s->tolerance, s->memory, &s->e);
  return projected_gradient(s->plans);
}

/* The time of one plan. */
static double timed(const solver *s) {
  double u[N];
  evaluations e = {0, 0};
  start(u);
  const double began = now_ns();
  s->plan(u, s->tolerance, s->memory, s == solvers ? NULL : &e);
  return now_ns() - began;
}

/* The loosest tolerance by which the library's accuracy is reached, or else the tightest that is tried. */
static void fit(solver *s) {
  s->tolerance = 1e-6;
  while (once(s) > reached && s->by_cost && s->tolerance > 1e-17) s->tolerance /= 10;
}

/* The number of pairs with which it is quickest. */
static void choose_memory(solver *s) {
  static const size_t tried[] = {4, 6, 8, 10, 12, 16, 20, 24};
  double least = 1e30;
  size_t best = tried[0];
  for (size_t i = 0; i < sizeof tried / sizeof *tried; i++) {
    double ns = 1e30;
    s->memory = tried[i];
    fit(s);
    if (projected_gradient(s->plans) > reached) continue;
    for (size_t j = 0; j < 100; j++) {
      const double took = timed(s);
      if (took < ns) ns = took;
    }
    if (ns < least) least = ns, best = tried[i];
  }
  s->memory = best;
}

int main(int words, char **word) {
  const size_t rounds = words > 1 ? strtoul(word[1], NULL, 10) : 2000;
  double least = 1e30;
  reached = once(&solvers[0]);
  solvers[0].memory = KILN_MEMORY;
  for (size_t i = 1; i < SOLVERS; i++) {
    if (solvers[i].has_memory) choose_memory(&solvers[i]);
    fit(&solvers[i]);
  }
#ifdef HAVE_RUST
  if (memcmp(solvers[0].plans, solvers[1].plans, sizeof solvers[0].plans) != 0) {
    fputs("bench: the plans of the C library and of the Rust differ\n", stderr);
    return 1;
  }
#endif
  for (size_t i = 0; i < SOLVERS; i++) {
    solvers[i].ns = 1e30;
    if (kiln_cost(solvers[i].plans) < least) least = kiln_cost(solvers[i].plans);
  }
  for (size_t j = 0; j < rounds; j++) {
    for (size_t i = 0; i < SOLVERS; i++) {
      const double took = timed(&solvers[i]);
      if (took < solvers[i].ns) solvers[i].ns = took;
    }
  }
  puts("| solver | µs a plan | against the C library | projected gradient | cost above the least | costs, gradients | pairs kept |");
  puts("|---|---|---|---|---|---|---|");
  for (size_t i = 0; i < SOLVERS; i++) {
    const solver *s = &solvers[i];
    printf("| %s | %.1f | %.2f | %.1e | %.1e | %zu, %zu | ", s->name, s->ns / 1000, s->ns / solvers[0].ns, projected_gradient(s->plans),
        kiln_cost(s->plans) - least, s->e.costs, s->e.gradients);
    if (s->has_memory || s->plan == by_library) printf("%zu |\n", s->memory);
    else puts("|");
  }
  return 0;
}
