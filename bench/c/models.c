/* The problems: a cheap quadratic with a box for any n, alone and under the loop, and the kiln. */
#include "bench.h"
#include "../../host/examples/kiln_model.h"

#include <string.h>
#include <time.h>

double now_ns(void) {
  struct timespec t;
  clock_gettime(CLOCK_MONOTONIC, &t);
  return (double)t.tv_sec * 1e9 + (double)t.tv_nsec;
}

/* ---- Half the sum of weight × (u - goal)², in four partial sums; n is a multiple of four. */
static double weight[64], goal[64];

static double quadratic_cost(const double *u, size_t n) {
  double sum[4] = {0, 0, 0, 0};
  for (size_t i = 0; i < n; i += 4) {
    for (size_t j = 0; j < 4; j++) {
      const double off = u[i + j] - goal[i + j];
      sum[j] = sum[j] + weight[i + j] * off * off;
    }
  }
  return 0.5 * ((sum[0] + sum[1]) + (sum[2] + sum[3]));
}

static void quadratic_gradient(const double *u, double *g, size_t n) {
  for (size_t i = 0; i < n; i++) g[i] = weight[i] * (u[i] - goal[i]);
}

static void quadratic_project(const double *p, double *u, size_t n) {
  for (size_t i = 0; i < n; i++) {
    const double x = p[i] < 1 ? p[i] : 1;
    u[i] = x > -1 ? x : -1;
  }
}

/* The plain residual, so that the rule costs next to nothing. */
static void plain_direction(int forget, const double *r, const double *u, double *d, size_t n) {
  (void)forget;
  (void)u;
  memcpy(d, r, n * sizeof *d);
}

/* ---- Under the loop: F1 is two of the places less 0.25 and 0.5, held in ±0.01; F2 is the sum of two, held at 0. */
static void small_f1(const double *u, double *f, size_t n) {
  f[0] = u[0] - 0.25;
  f[1] = u[n / 2] - 0.5;
}

static void small_f2(const double *u, double *f, size_t n) { f[0] = u[1] + u[n - 1]; }

static void small_project_c(const double *p, double *q, size_t n1) {
  for (size_t i = 0; i < n1; i++) {
    const double x = p[i] < 0.01 ? p[i] : 0.01;
    q[i] = x > -0.01 ? x : -0.01;
  }
}

static void off_c(const double *u, const double *xi, size_t n, double *off) {
  double t[2], p[2];
  const double c = xi[0] > 0 ? xi[0] : 1;
  small_f1(u, t, n);
  t[0] = t[0] + xi[1] / c;
  t[1] = t[1] + xi[2] / c;
  small_project_c(t, p, 2);
  off[0] = t[0] - p[0];
  off[1] = t[1] - p[1];
}

static double quadratic_psi(const double *u, const double *xi, size_t n) {
  double off[2], f2;
  off_c(u, xi, n, off);
  small_f2(u, &f2, n);
  return quadratic_cost(u, n) + 0.5 * xi[0] * (off[0] * off[0] + off[1] * off[1] + f2 * f2);
}

static void quadratic_d_psi(const double *u, const double *xi, double *g, size_t n) {
  double off[2], f2;
  off_c(u, xi, n, off);
  small_f2(u, &f2, n);
  quadratic_gradient(u, g, n);
  g[0] = g[0] + xi[0] * off[0];
  g[n / 2] = g[n / 2] + xi[0] * off[1];
  g[1] = g[1] + xi[0] * f2;
  g[n - 1] = g[n - 1] + xi[0] * f2;
}

static void small_jf1t(const double *u, const double *d, double *g, size_t n) {
  (void)u;
  memset(g, 0, n * sizeof *g);
  g[0] = d[0];
  g[n / 2] = d[1];
}

static void small_jf2t(const double *u, const double *d, double *g, size_t n) {
  (void)u;
  memset(g, 0, n * sizeof *g);
  g[1] = g[n - 1] = d[0];
}

const callbacks quadratic = {quadratic_cost, quadratic_gradient, quadratic_project, plain_direction, quadratic_psi, quadratic_d_psi,
    small_f1, small_f2, small_project_c, small_jf1t, small_jf2t};

task quadratic_task(size_t n) {
  for (size_t i = 0; i < 64; i++) {
    weight[i] = 1 + (double)(i * 37 % 64) / 16;
    goal[i] = (double)(i * 29 % 64) / 24 - 1.3;
  }
  task t = {.n = n, .n1 = 2, .n2 = 1, .max_inner = 100, .max_outer = 20, .tolerance = 1e-6, .epsilon = 1e-5, .delta = 1e-4,
      .initial = 1e-2, .penalty_factor = 5, .epsilon_factor = 0.1, .coefficient = 0.1};
  for (size_t i = 0; i < n; i++) t.u[i] = 0.1 * (double)(i % 7);
  t.xi[0] = 1;
  return t;
}

/* ---- The kiln of the example. */
static kiln_memory memory;

static double kiln_cost_of(const double *u, size_t n) { return (void)n, kiln_cost(u); }
static void kiln_gradient_of(const double *u, double *g, size_t n) { (void)n, kiln_gradient(u, g); }
static void kiln_project_of(const double *p, double *u, size_t n) { (void)n, kiln_project(p, u); }
static void kiln_direction_of(int forget, const double *r, const double *u, double *d, size_t n) {
  (void)n, kiln_direction(&memory, forget, r, u, d);
}

const callbacks kiln = {.cost = kiln_cost_of, .gradient = kiln_gradient_of, .project = kiln_project_of, .direction = kiln_direction_of};

task kiln_task(void) {
  task t = {.n = KILN_PERIODS, .max_inner = 200, .tolerance = 1e-8};
  for (size_t i = 0; i < KILN_PERIODS; i++) t.u[i] = 0.5;
  return t;
}
