/* values [ROUNDS]: the calls by value (crate values). First whole runs beside the original Rust, each side with the recorded answers of a solve, in turn; then starts, points, psi and d_psi.
   The calls by value go at 16 places of the stack, since copies of runs are slower where source and target lie alike in their pages: the least and the most over them are printed. */
#include <alloca.h>
#include <stdint.h>
#include <stdio.h>
#include <stdlib.h>
#include <string.h>

#include "bench.h"

/* The kinds of what the last call told. */
enum { ASKED, ENDED };

/* A run begins at u, and at xi, and is given answers: each has so many places, 0 where it is a number, and the places lie one answer behind the other. What comes back is the kind. */
uint32_t values_inner_start(const task *t, const double *u, size_t us);
uint32_t values_loop_start(const task *t, const double *u, size_t us, const double *xi, size_t xis);
uint32_t values_psi_start(const task *t, const double *u, size_t us, const double *xi, size_t xis);
uint32_t values_d_psi_start(const task *t, const double *u, size_t us, const double *xi, size_t xis);
uint32_t values_inner(const task *t, const double *u, size_t us, const uint32_t *places, size_t count, const double *xs, size_t xss, double *plan, size_t plans);
uint32_t values_loop(const task *t, const double *u, size_t us, double *xi, size_t xis, const uint32_t *places, size_t count, const double *xs, size_t xss, double *plan, size_t plans);
uint32_t values_psi(const task *t, const double *u, size_t us, const double *xi, size_t xis, const uint32_t *places, size_t count, const double *xs, size_t xss, double *value);
uint32_t values_d_psi(const task *t, const double *u, size_t us, const double *xi, size_t xis, const uint32_t *places, size_t count, const double *xs, size_t xss, double *res, size_t ress);

/* A run begins, and the points of its first question are copied: 0, or the number of a refusal. */
uint32_t values_inner_points(const task *t, const double *u, size_t us, double *p, size_t ps, double *q, size_t qs);
uint32_t values_loop_points(const task *t, const double *u, size_t us, const double *xi, size_t xis, double *p, size_t ps, double *q, size_t qs);
uint32_t values_psi_points(const task *t, const double *u, size_t us, const double *xi, size_t xis, double *p, size_t ps, double *q, size_t qs);
uint32_t values_d_psi_points(const task *t, const double *u, size_t us, const double *xi, size_t xis, double *p, size_t ps, double *q, size_t qs);

/* ---- a solve's answers, recorded and given again */

enum { MOST_ANSWERS = 1 << 12, MOST_PLACES = 1 << 18 };
static uint32_t places[MOST_ANSWERS];
static double xs[MOST_PLACES];
static size_t count, end;

static void record(uint32_t n, const double *x) {
  const size_t width = n ? n : 1;
  if (count == MOST_ANSWERS || end + width > MOST_PLACES) {
    fputs("values: a solve has more answers than there is room for\n", stderr);
    exit(1);
  }
  places[count++] = n;
  memcpy(xs + end, x, width * sizeof *x);
  end += width;
}

static double number(double x) { return record(0, &x), x; }

static double cost_kept(const double *u, size_t n) { return number(quadratic.cost(u, n)); }
static void gradient_kept(const double *u, double *g, size_t n) { quadratic.gradient(u, g, n), record((uint32_t)n, g); }
static void project_kept(const double *p, double *u, size_t n) { quadratic.project(p, u, n), record((uint32_t)n, u); }
static void direction_kept(int forget, const double *r, const double *u, double *d, size_t n) { quadratic.direction(forget, r, u, d, n), record((uint32_t)n, d); }
static double psi_kept(const double *u, const double *xi, size_t n) { return number(quadratic.psi(u, xi, n)); }
static void d_psi_kept(const double *u, const double *xi, double *g, size_t n) { quadratic.d_psi(u, xi, g, n), record((uint32_t)n, g); }
static void f1_kept(const double *u, double *f, size_t n) { quadratic.f1(u, f, n), record(2, f); }
static void f2_kept(const double *u, double *f, size_t n) { quadratic.f2(u, f, n), record(1, f); }
static void project_c_kept(const double *p, double *q, size_t n1) { quadratic.project_c(p, q, n1), record((uint32_t)n1, q); }

static const callbacks recorder = {cost_kept, gradient_kept, project_kept, direction_kept, psi_kept, d_psi_kept, f1_kept, f2_kept, project_c_kept, NULL, NULL};

#ifdef HAVE_RUST
static const double *next;

static void give(double *x, size_t n) {
  memcpy(x, next, n * sizeof *x);
  next += n;
}

static double cost_again(const double *u, size_t n) { return (void)u, (void)n, *next++; }
static void vector_again(const double *u, double *v, size_t n) { (void)u, give(v, n); }
static void direction_again(int forget, const double *r, const double *u, double *d, size_t n) { (void)forget, (void)r, (void)u, give(d, n); }
static double psi_again(const double *u, const double *xi, size_t n) { return (void)u, (void)xi, (void)n, *next++; }
static void d_psi_again(const double *u, const double *xi, double *g, size_t n) { (void)u, (void)xi, give(g, n); }
static void f1_again(const double *u, double *f, size_t n) { (void)u, (void)n, give(f, 2); }
static void f2_again(const double *u, double *f, size_t n) { (void)u, (void)n, give(f, 1); }

static const callbacks player = {cost_again, vector_again, vector_again, direction_again, psi_again, d_psi_again, f1_again, f2_again, vector_again, NULL, NULL};
#endif

/* ---- time */

static double v[64], p[64], q[64];
static task t;

static void wrong(const char *what) {
  fprintf(stderr, "values: %s at n = %zu did not go as it should\n", what, t.n);
  exit(1);
}

/* A call under its name: how many answers it takes, and whether it went as it should. */
typedef struct {
  const char *name;
  size_t answers;
  int (*right)(void);
} call;

/* ns a call, the least of the rounds, with the stack so many bytes further down. */
static double timed(const call *c, size_t times, size_t rounds, size_t down) {
  volatile char *room = alloca(down + 1);
  double least = 1e30;
  room[0] = 0;
  for (size_t i = 0; i < rounds; i++) {
    const double began = now_ns();
    for (size_t j = 0; j < times; j++) {
      if (!c->right()) wrong(c->name);
    }
    const double each = (now_ns() - began) / (double)times;
    if (each < least) least = each;
  }
  return least;
}

typedef struct {
  double least, most;
} range;

static range over_places(const call *c, size_t times, size_t rounds) {
  range r = {1e30, 0};
  for (size_t down = 0; down < 4096; down += 256) {
    const double ns = timed(c, times, rounds, down) / (double)(c->answers ? c->answers : 1);
    if (ns < r.least) r.least = ns;
    if (ns > r.most) r.most = ns;
  }
  return r;
}

/* ---- whole runs */

static result by_value;

static int inner_run(void) { return values_inner(&t, t.u, t.n, places, count, xs, end, by_value.plan, t.n) == ENDED; }

static int loop_run(void) {
  double xi[3];
  memcpy(xi, t.xi, sizeof xi);
  const uint32_t kind = values_loop(&t, t.u, t.n, xi, 3, places, count, xs, end, by_value.plan, t.n);
  memcpy(by_value.y, xi + 1, 2 * sizeof *xi);
  return kind == ENDED;
}

#ifdef HAVE_RUST
static void *cache;
static result theirs;

static int rust_inner_run(void) { return next = xs, rust_inner(cache, &player, &t, &theirs), next == xs + end; }
static int rust_loop_run(void) { return next = xs, rust_loop(cache, &player, &t, &theirs), next == xs + end; }
#endif

static void whole_run(int loop, size_t n, size_t rounds) {
  result ours = {0};
  t = quadratic_task(n);
  count = end = 0;
  loop ? library_loop(&recorder, &t, &ours, NULL) : library_inner(&recorder, &t, &ours, NULL);
  const call c = {loop ? "loop" : "inner solve", count, loop ? loop_run : inner_run};
  memset(&by_value, 0, sizeof by_value);
  if (!c.right() || memcmp(by_value.plan, ours.plan, sizeof ours.plan) != 0 || memcmp(by_value.y, ours.y, sizeof ours.y) != 0) wrong(c.name);
  const size_t times = 2000 / count + 1;
  const range r = over_places(&c, times, rounds);
  printf("| %s | %zu | %zu | %.0f to %.0f |", c.name, n, count, r.least, r.most);
#ifdef HAVE_RUST
  cache = loop ? rust_loop_new(&t) : rust_inner_new(&t);
  const call rust = {"the Rust", count, loop ? rust_loop_run : rust_inner_run};
  const double ns = over_places(&rust, times, rounds).least;
  printf(" %.1f | %.1f to %.1f |", ns, r.least / ns, r.most / ns);
#endif
  puts("");
}

/* ---- starts, points, psi and d_psi */

static uint32_t psi_places[4], d_psi_places[6];
static double value;

static int inner_start(void) { return values_inner_start(&t, v, t.n) == ASKED; }
static int inner_points(void) { return values_inner_points(&t, v, t.n, p, t.n, q, 0) == 0; }
static int loop_start(void) { return values_loop_start(&t, v, t.n, t.xi, 3) == ASKED; }
static int loop_points(void) { return values_loop_points(&t, v, t.n, t.xi, 3, p, t.n, q, 3) == 0; }
static int psi_start(void) { return values_psi_start(&t, v, t.n, t.xi, 3) == ASKED; }
static int psi_points(void) { return values_psi_points(&t, v, t.n, t.xi, 3, p, t.n, q, 0) == 0; }
static int psi_run(void) { return values_psi(&t, v, t.n, t.xi, 3, psi_places, 4, xs, 6, &value) == ENDED; }
static int d_psi_start(void) { return values_d_psi_start(&t, v, t.n, t.xi, 3) == ASKED; }
static int d_psi_points(void) { return values_d_psi_points(&t, v, t.n, t.xi, 3, p, t.n, q, 0) == 0; }
static int d_psi_run(void) { return values_d_psi(&t, v, t.n, t.xi, 3, d_psi_places, 6, xs, 3 * t.n + 5, p, t.n) == ENDED; }

static const call calls[] = {
    {"inner solve, start", 0, inner_start}, {"inner solve, start and points", 0, inner_points}, {"loop, start", 0, loop_start}, {"loop, start and points", 0, loop_points},
    {"psi, start", 0, psi_start}, {"psi, start and points", 0, psi_points}, {"psi, answer", 4, psi_run},
    {"d_psi, start", 0, d_psi_start}, {"d_psi, start and points", 0, d_psi_points}, {"d_psi, answer", 6, d_psi_run},
};

static range of_call(const call *c, size_t n, size_t rounds) {
  t = quadratic_task(n);
  memcpy(psi_places, (uint32_t[]){0, 2, 2, 1}, sizeof psi_places);
  memcpy(d_psi_places, (uint32_t[]){(uint32_t)n, 2, 2, (uint32_t)n, 1, (uint32_t)n}, sizeof d_psi_places);
  return over_places(c, 200, rounds);
}

int main(int words, char **word) {
  const size_t rounds = words > 1 ? strtoul(word[1], NULL, 10) : 100, sizes[] = {4, 16, 24, 64};
  for (size_t i = 0; i < 64; i++) v[i] = 0.5 + (double)i / 100;
#ifdef HAVE_RUST
  puts("| | n | answers | ns an answer by value | ns an answer, the Rust | ratio |\n|---|---|---|---|---|---|");
#else
  puts("| | n | answers | ns an answer by value |\n|---|---|---|---|");
#endif
  for (int loop = 0; loop < 2; loop++) {
    for (size_t i = 0; i < sizeof sizes / sizeof *sizes; i++) whole_run(loop, sizes[i], rounds);
  }
  puts("\n| ns a call by value | n = 4 | 16 | 24 | 64 |\n|---|---|---|---|---|");
  for (size_t i = 0; i < sizeof calls / sizeof *calls; i++) {
    printf("| %s |", calls[i].name);
    for (size_t j = 0; j < sizeof sizes / sizeof *sizes; j++) {
      const range r = of_call(&calls[i], sizes[j], rounds);
      printf(" %.0f to %.0f |", r.least, r.most);
    }
    puts("");
  }
  return 0;
}
