/* What both sides of the comparison are given and hand back. */
#ifndef BENCH_H
#define BENCH_H
#include <stddef.h>
#include <stdint.h>

/* The host's callbacks; both sides call these very functions. No output overlaps an input, but project may work in place. */
typedef struct {
  double (*cost)(const double *u, size_t n);
  void (*gradient)(const double *u, double *g, size_t n);
  void (*project)(const double *p, double *u, size_t n);
  void (*direction)(int forget, const double *r, const double *u, double *d, size_t n);
  /* Under the loop: xi is the penalty and two multipliers. */
  double (*psi)(const double *u, const double *xi, size_t n);
  void (*d_psi)(const double *u, const double *xi, double *g, size_t n);
  void (*f1)(const double *u, double *f, size_t n);
  void (*f2)(const double *u, double *f, size_t n);
  void (*project_c)(const double *p, double *q, size_t n1);
  /* For d_psi: the transposed Jacobian products. */
  void (*jf1t)(const double *u, const double *d, double *g, size_t n);
  void (*jf2t)(const double *u, const double *d, double *g, size_t n);
} callbacks;

typedef struct {
  size_t n, n1, n2, max_inner, max_outer;
  double tolerance, epsilon, delta, initial, penalty_factor, epsilon_factor, coefficient;
  double u[64], xi[33];
} task;

/* All of it is compared bit by bit. psi ends with cost, and d_psi with plan. */
typedef struct {
  uint64_t end, inner, outer;
  double norm, cost, penalty, delta_y, f2;
  double plan[64], y[32];
} result;

extern const callbacks quadratic, kiln;
task quadratic_task(size_t n);
task kiln_task(void);

/* An inner solve, a loop, psi and d_psi through the C library, and through an older one. asked, where it is not NULL, gets one for each question, by its number. */
typedef void run_by(const callbacks *c, const task *t, result *r, size_t *asked);
run_by library_inner, library_loop, library_psi, library_d_psi;
run_by old_inner, old_loop, old_psi, old_d_psi;

/* The same through the original Rust. A cache is made once and used for many solves, as its authors advise. */
void *rust_inner_new(const task *t);
void *rust_loop_new(const task *t);
typedef void run_by_rust(void *cache, const callbacks *c, const task *t, result *r);
run_by_rust rust_inner, rust_loop, rust_psi, rust_d_psi;

/* Time. */
double now_ns(void);
#endif
