/* calls [RUNS]: what the header says of the calls, tried on random runs of each kind. An answer refused by 6 to 8 writes no byte of the run and no lent place, and the question that
 * stands is read at any time; the table of places is what the calls give at every phase; points copied are those that lie in the run; settings and ends stand in the fields of their
 * names; a struct of zeros has ended, and one of any bytes is answered. Runs and lent places are allocated with just their bytes, so that valgrind sees a step beyond. */
#include <math.h>
#include <stdio.h>
#include <stdlib.h>
#include <string.h>

#include "pozkerrin.h"

static const char *doing = "";
static size_t calls;

#define CHECK(what) \
  do { \
    if (!(what)) fprintf(stderr, "%s, call %zu: not %s (line %d)\n", doing, calls, #what, __LINE__), exit(1); \
  } while (0)

static uint64_t seed = 1;

static uint64_t next(void) {
  uint64_t z = (seed += 0x9E3779B97F4A7C15u);
  z = (z ^ (z >> 30)) * 0xBF58476D1CE4E5B9u;
  z = (z ^ (z >> 27)) * 0x94D049BB133111EBu;
  return z ^ (z >> 31);
}

static size_t below(size_t n) { return (size_t)(next() >> 11) % n; }
static double real(void) { return (double)(int64_t)next() / 9.3e18; } /* from -1 to 1 */

static double odd(void) {
  static const double odds[] = {0.0, -0.0, 1e308, -1e308, 5e-324, 1e9, -1.0};
  const size_t i = below(10);
  return i < 7 ? odds[i] : i == 7 ? (double)NAN : i == 8 ? (double)INFINITY : -(double)INFINITY;
}

/* ---- A run of any kind. */
enum { INNER, LOOP, PSI, D_PSI, KINDS };

typedef struct {
  size_t n, n1, n2, xis;
  void *run;
  size_t size;
  double *plan, *xi; /* what is lent: n places or none, xis places or none */
  size_t plans, lents;
} play_data;

static play_data d;
static int kind;

static void *room(size_t bytes) { /* one place at least */
  void *p = malloc(bytes ? bytes : sizeof(double));
  if (!p) exit(2);
  return p;
}

static uint32_t phase(void) {
  return kind == INNER ? ((pkr_inner *)d.run)->inner.phase
      : kind == LOOP   ? ((pkr_loop *)d.run)->alm.phase
      : kind == PSI    ? ((pkr_psi *)d.run)->phase
                       : ((pkr_d_psi *)d.run)->phase;
}

static void told(uint32_t *outcome, uint32_t *number) {
  if (kind <= LOOP) { /* a loop tells in its inner part, which comes first */
    const pkr_inner_fields *f = d.run;
    *outcome = f->outcome, *number = f->told;
  } else {
    const uint32_t *w = d.run; /* phase, outcome, told */
    *outcome = w[1], *number = w[2];
  }
}

static uint32_t question(void) {
  return kind == INNER ? pkr_inner_question(d.run)
      : kind == LOOP   ? pkr_loop_question(d.run)
      : kind == PSI    ? pkr_psi_question(d.run)
                       : pkr_d_psi_question(d.run);
}

static uint32_t points(double *first, size_t firsts, double *second, size_t seconds) {
  return kind == INNER ? pkr_inner_points(d.run, first, firsts, second, seconds)
      : kind == LOOP   ? pkr_loop_points(d.run, first, firsts, second, seconds)
      : kind == PSI    ? pkr_psi_points(d.run, first, firsts, second, seconds)
                       : pkr_d_psi_points(d.run, first, firsts, second, seconds);
}

/* quick is whether the call for that kind of answer alone is made, where there is one. */
static uint32_t answer(int quick, uint32_t of, double x, uint32_t code, const double *v, size_t vs, size_t plans, size_t xis) {
  calls++;
  if (quick && kind == INNER && of == PKR_NUMBER) return pkr_inner_number(d.run, x, d.plan, plans);
  if (quick && kind == INNER && of == PKR_VECTOR) return pkr_inner_vector(d.run, v, vs, d.plan, plans);
  if (quick && kind == LOOP && of == PKR_NUMBER) return pkr_loop_number(d.run, x, d.plan, plans, d.xi, xis);
  if (quick && kind == LOOP && of == PKR_VECTOR) return pkr_loop_vector(d.run, v, vs, d.plan, plans, d.xi, xis);
  if (kind == INNER && (of == PKR_YES || of == PKR_NO)) return pkr_inner_decision(d.run, of == PKR_YES, d.plan, plans);
  if (kind == LOOP && (of == PKR_YES || of == PKR_NO)) return pkr_loop_decision(d.run, of == PKR_YES, d.plan, plans, d.xi, xis);
  if (kind == INNER && of == PKR_FAILURE) return pkr_inner_failure(d.run, code, d.plan, plans);
  if (kind == LOOP && of == PKR_FAILURE) return pkr_loop_failure(d.run, code, d.plan, plans, d.xi, xis);
  if (kind == INNER) return pkr_inner_answer(d.run, of, x, code, v, vs, d.plan, plans);
  if (kind == LOOP) return pkr_loop_answer(d.run, of, x, code, v, vs, d.plan, plans, d.xi, xis);
  if (kind == PSI) return pkr_psi_answer(d.run, of, x, code, v, vs);
  return pkr_d_psi_answer(d.run, of, x, code, v, vs, d.plan, plans);
}

/* An answer that is refused by this number, 6 to 8: no byte is written, and the same question stands. */
static void refused(uint32_t by, int quick, uint32_t of, const double *v, size_t vs, size_t plans, size_t xis) {
  static unsigned char was[sizeof(pkr_loop)];
  double plan[PKR_PLACES], xi[PKR_MAPPINGS + 1];
  const uint32_t stood = question();
  memcpy(was, d.run, d.size);
  memcpy(plan, d.plan, d.plans * sizeof *plan);
  memcpy(xi, d.xi, d.lents * sizeof *xi);
  CHECK(answer(quick, of, 1, 5, v, vs, plans, xis) == by);
  CHECK(memcmp(was, d.run, d.size) == 0);
  CHECK(memcmp(plan, d.plan, d.plans * sizeof *plan) == 0);
  CHECK(memcmp(xi, d.xi, d.lents * sizeof *xi) == 0);
  CHECK(question() == stood);
}

/* ---- What a question wants. */
static int asks_number(uint32_t q) { return q == PKR_COST || q == PKR_LAST_COST; }
static int asks_time(uint32_t q) { return q == PKR_TIME || q == PKR_OUTER_TIME; }
static int asks_direction(uint32_t q) { return q == PKR_DIRECTION || q == PKR_DIRECTION_FORGET; }
static size_t wanted(uint32_t q) { return q == PKR_PROJECT_Y || q == PKR_F1 || q == PKR_PROJECT_C ? d.n1 : q == PKR_F2 ? d.n2 : d.n; }
static size_t first_places(uint32_t q) { return asks_time(q) ? 0 : q == PKR_PROJECT_Y || q == PKR_PROJECT_C ? d.n1 : d.n; }

static size_t second_places(uint32_t q) {
  if (asks_direction(q)) return d.n;
  if (kind == LOOP) return asks_number(q) || q == PKR_GRADIENT ? d.xis : 0;
  return q == PKR_JF1T ? d.n1 : q == PKR_JF2T ? d.n2 : 0;
}

/* The numbers and vectors of an inner solve are what their names say: where the first PROJECT is asked, and where COST is asked at a half step. */
static void names_stand(const pkr_inner_fields *f, const double *board) {
  const double *u = board + 64 * PKR_V_U, *step = board + 64 * PKR_V_STEP, *half = board + 64 * PKR_V_HALF, *fpr = board + 64 * PKR_V_FPR;
  const double *gradient = board + 64 * PKR_V_GRADIENT;
  double squares = 0;
  if (f->phase == 4) {
    CHECK(f->gamma == 0.95 / fmax(f->lipschitz_constant, 1e-10) && f->sigma == (1 - 0.95) / (4 * f->gamma));
    for (size_t i = 0; i < f->n; i++) CHECK(step[i] == u[i] - f->gamma * gradient[i]);
  }
  if (f->phase != 5) return;
  for (size_t i = 0; i < f->n; i++) {
    CHECK(fpr[i] == u[i] - half[i] || fpr[i] != fpr[i]);
    squares = squares + fpr[i] * fpr[i];
  }
  CHECK(f->norm_gamma_fpr == sqrt(squares) || squares != squares);
  CHECK(!(f->best_norm_gamma_fpr > f->norm_gamma_fpr));
}

/* The penalty and the multipliers of a loop are those of the xi that is shown. */
static void xi_stands(const pkr_loop *r, const double *xi) {
  if (d.xis == 0) return;
  CHECK(xi[0] == r->alm.penalty);
  CHECK(memcmp(xi + 1, r->board + 64 * PKR_V_Y, d.n1 * sizeof *xi) == 0);
}

/* The points, copied: none for wrong lengths; the first is the one that lies in the run. */
static void look(uint32_t q, double *first) {
  const size_t a = first_places(q), b = second_places(q);
  double *p = room(a * sizeof *p), *s = room(b * sizeof *s), other[PKR_PLACES + 1], none = 9;
  CHECK(a == 0 || points(&none, 0, s, b) == 8);
  CHECK(points(other, a + 1, s, b) == 8 && points(p, a, other, b + 1) == 8 && none == 9);
  CHECK(points(p, a, s, b) == 0);
  if (kind <= LOOP && a > 0) {
    const double *at = kind == INNER ? pkr_inner_point(d.run) : pkr_loop_point(d.run);
    CHECK(memcmp(p, at, a * sizeof *p) == 0);
  }
  if (kind <= LOOP && asks_direction(q)) CHECK(memcmp(s, kind == INNER ? pkr_inner_u(d.run) : pkr_loop_u(d.run), b * sizeof *s) == 0);
  if (kind == LOOP) {
    CHECK(pkr_loop_second(d.run, other, b + 1) == 8 && pkr_loop_second(d.run, other, b) == 0);
    CHECK(memcmp(s, other, b * sizeof *s) == 0);
    if (q == PKR_COST || q == PKR_GRADIENT) xi_stands(d.run, s);
    if (phase() == 3) names_stand(&((pkr_loop *)d.run)->inner, ((pkr_loop *)d.run)->board);
  }
  if (kind == INNER) names_stand(d.run, ((pkr_inner *)d.run)->board);
  memcpy(first, p, a * sizeof *p);
  free(p);
  free(s);
}

/* Answers that are refused while q stands. */
static void wrong(uint32_t q, const double *v) {
  static const uint32_t nameless[] = {5, 6, 77, UINT32_MAX};
  const size_t places = wanted(q);
  const uint32_t right = asks_number(q) ? PKR_NUMBER : asks_time(q) ? PKR_YES : PKR_VECTOR;
  for (uint32_t of = PKR_NUMBER; of <= PKR_NO; of++) {
    if (of == right || (asks_time(q) && of == PKR_NO)) continue;
    refused(PKR_BAD_KIND, 0, of, v, places, d.plans, d.lents);
    refused(PKR_BAD_KIND, 1, of, v, places, d.plans, d.lents);
  }
  refused(PKR_BAD_KIND, 0, nameless[below(4)], v, places, d.plans, d.lents);
  if (asks_time(q) || asks_direction(q)) refused(PKR_BAD_KIND, 0, PKR_FAILURE, v, places, d.plans, d.lents);
  for (int quick = 0; quick < 2; quick++) {
    if (right == PKR_VECTOR) {
      refused(PKR_BAD_LENGTH, quick, right, v, places + 1, d.plans, d.lents);
      if (places > 0) refused(PKR_BAD_LENGTH, quick, right, v, places - 1, d.plans, d.lents);
    }
    if (kind != PSI) refused(PKR_BAD_LENGTH, quick, right, v, places, d.plans - 1, d.lents);
    if (kind == LOOP) refused(PKR_BAD_LENGTH, quick, right, v, places, d.plans, d.lents + 1);
  }
}

/* ---- Starts. */
static pkr_inner_settings inner_set;
static pkr_loop_settings loop_set;

static void settings_stand(void) {
  if (kind == INNER) {
    const pkr_inner_fields *f = &((pkr_inner *)d.run)->inner;
    CHECK(f->n == inner_set.n && f->max_iter == inner_set.max_iter && f->limited == inner_set.limited && f->has_akkt == inner_set.has_akkt);
    CHECK(f->tolerance == inner_set.tolerance && f->akkt_tolerance == inner_set.akkt_tolerance);
  } else if (kind == LOOP) {
    const pkr_loop_fields *f = &((pkr_loop *)d.run)->alm;
    CHECK(f->n == d.n && f->n1 == d.n1 && f->n2 == d.n2 && f->has_set_y == loop_set.has_set_y && f->limited == loop_set.limited);
    CHECK(f->max_inner_iterations == loop_set.max_inner_iterations && f->max_outer_iterations == loop_set.max_outer_iterations);
    CHECK(f->tolerance == loop_set.tolerance && f->epsilon_tolerance == loop_set.epsilon_tolerance && f->delta_tolerance == loop_set.delta_tolerance);
    CHECK(f->initial_inner_tolerance == loop_set.initial_inner_tolerance && f->penalty_update_factor == loop_set.penalty_update_factor);
    CHECK(f->epsilon_update_factor == loop_set.epsilon_update_factor && f->sufficient_decrease_coeff == loop_set.sufficient_decrease_coeff);
  } else {
    const size_t *k = kind == PSI ? &((pkr_psi *)d.run)->n : &((pkr_d_psi *)d.run)->n;
    CHECK(k[0] == d.n && k[1] == d.n1 && k[2] == d.n2);
  }
}

static uint32_t start(const double *u, const double *xi) {
  inner_set = (pkr_inner_settings){d.n, 1 + below(12), (uint32_t)below(2), pow(10, -1 - (double)below(8)), (uint32_t)below(2), 1e-3};
  loop_set = (pkr_loop_settings){d.n, d.n1, d.n2, d.n1 > 0 && below(2), 1 + below(9), 1 + below(6), (uint32_t)below(2), 1e-3, 1e-3, 1e-2, 1e-1, 3, 0.1, 0.2};
  calls++;
  return kind == INNER ? pkr_inner_start(d.run, &inner_set, u, d.n)
      : kind == LOOP   ? pkr_loop_start(d.run, &loop_set, u, d.n, xi, d.xis)
      : kind == PSI    ? pkr_psi_start(d.run, d.n, d.n1, d.n2, u, d.n, xi, d.xis)
                       : pkr_d_psi_start(d.run, d.n, d.n1, d.n2, u, d.n, xi, d.xis);
}

static int seen[KINDS][17]; /* the phases that came up */

/* Half the sum of squares of u - 0.3 over a box, answered in part by other numbers. */
static double model(uint32_t q, const double *at, double *v, int wild) {
  double cost = 0;
  for (size_t i = 0; i < PKR_PLACES; i++) {
    const double p = i < first_places(q) ? at[i] : 0, scale = 1 + (double)(i % 5);
    cost += 0.5 * scale * (p - 0.3) * (p - 0.3);
    v[i] = q == PKR_GRADIENT ? scale * (p - 0.3) : q == PKR_PROJECT ? fmin(1, fmax(-1, p)) : q == PKR_F1 || q == PKR_F2 ? 0.1 * (double)(i + 1) : p;
    if (wild && below(40) == 0) v[i] = below(2) ? odd() : 5 * real();
  }
  return wild && below(20) == 0 ? odd() : wild ? cost * (1 + 0.3 * real()) : cost;
}

static void play(int whose, int wild) {
  static const size_t sizes[KINDS] = {sizeof(pkr_inner), sizeof(pkr_loop), sizeof(pkr_psi), sizeof(pkr_d_psi)};
  double u[PKR_PLACES], xi[PKR_MAPPINGS + 1], at[PKR_PLACES], v[PKR_PLACES + 1];
  kind = whose;
  d.n = 1 + below(below(4) ? 5 : 64);
  d.n1 = kind == INNER ? 0 : below(4);
  d.n2 = kind == INNER ? 0 : below(4);
  d.xis = pkr_xi_places(d.n1, d.n2);
  d.size = sizes[kind];
  d.run = room(d.size);
  d.plans = kind == PSI ? 0 : d.n;
  d.lents = kind == LOOP ? d.xis : 0;
  d.plan = room(d.plans * sizeof *d.plan);
  d.xi = room(d.lents * sizeof *d.xi);
  memset(d.run, 0xA5, d.size);
  memset(v, 0, sizeof v);
  for (size_t i = 0; i < d.plans; i++) d.plan[i] = 77;
  for (size_t i = 0; i < d.lents; i++) d.xi[i] = 77;
  for (size_t i = 0; i < PKR_PLACES; i++) u[i] = real();
  for (size_t i = 0; i <= PKR_MAPPINGS; i++) xi[i] = 0.5 + 0.25 * real();

  uint32_t got = start(u, xi), q, outcome, number, code = 0;
  CHECK(got == 0);
  settings_stand();
  while (q = question(), q != PKR_NO_QUESTION) {
    CHECK(got == 0 && phase() < 17);
    told(&outcome, &number);
    CHECK(outcome == PKR_ASKED && number == q);
    seen[kind][phase()] = 1;
    look(q, at);
    wrong(q, v);
    for (size_t i = 0; i < d.plans; i++) CHECK(d.plan[i] == 77);
    for (size_t i = 0; i < d.lents; i++) CHECK(d.xi[i] == 77);
    const double x = model(q, at, v, wild);
    const uint32_t of = asks_number(q) ? PKR_NUMBER : asks_time(q) ? (below(9) ? PKR_YES : PKR_NO) : PKR_VECTOR;
    const int fails = wild && below(200) == 0 && !asks_time(q) && !asks_direction(q);
    code = (uint32_t)next();
    got = answer((int)below(2), fails ? PKR_FAILURE : of, x, code, v, wanted(q), d.plans, d.lents);
  }
  told(&outcome, &number);
  CHECK(got == 0 ? outcome == PKR_ENDED : got == 9 ? outcome == PKR_FAILED && number == code : outcome == PKR_REFUSED && number == got);
  for (size_t i = 0; i < d.plans; i++) CHECK((got == 0) == (d.plan[i] != 77));
  refused(PKR_OVER, 0, (uint32_t)below(7), v, d.n, d.plans, d.lents);
  refused(PKR_OVER, 1, (uint32_t)below(2), v, below(9), d.plans, d.lents);
  CHECK(points(at, d.n, v, 0) == 6);
  free(d.run);
  free(d.plan);
  free(d.xi);
}

/* ---- At every number of a phase the table in the header is what the calls give. */
static void places(void) {
  static pkr_inner inner;
  static pkr_loop loop;
  static const uint32_t more[] = {255, 256, 1u << 31, UINT32_MAX};
  doing = "places";
  for (uint32_t i = 0; i < 40; i++) {
    inner.inner.phase = i < 36 ? i : more[i - 36];
    CHECK(pozkerrin_inner_place(&inner) == pkr_inner_place(inner.inner.phase));
    for (uint32_t j = 0; j < 40; j++) {
      loop.alm.phase = inner.inner.phase;
      loop.inner.phase = j < 36 ? j : more[j - 36];
      CHECK(pozkerrin_loop_place(&loop) == pkr_loop_place(loop.alm.phase, loop.inner.phase));
    }
  }
}

/* ---- What the header reads of a run is what lies there, and settings may lie in the run's own memory. */
static void reads(void) {
  static pkr_inner inner;
  static pkr_loop loop;
  static pkr_psi psi;
  static pkr_d_psi d_psi;
  static union {
    pkr_loop run;
    struct {
      char before[96]; /* so that they lie where a start writes */
      pkr_loop_settings settings;
    } within;
  } both;
  doing = "reads";
  inner.inner.told = 5;
  inner.inner.end = (pkr_inner_end){7, 1.5, 2.5};
  CHECK(pkr_inner_told(&inner) == 5 && pkr_inner_iterations(&inner) == 7 && pkr_inner_norm(&inner) == 1.5 && pkr_inner_cost(&inner) == 2.5);
  loop.inner.told = 6;
  loop.alm.end = (pkr_loop_end){8, 9, 1, 2, 3, 4, 5};
  CHECK(pkr_loop_told(&loop) == 6 && pkr_loop_outer_iterations(&loop) == 8 && pkr_loop_inner_iterations(&loop) == 9 && pkr_loop_norm(&loop) == 1);
  CHECK(pkr_loop_delta_y_norm(&loop) == 2 && pkr_loop_f2_norm(&loop) == 3 && pkr_loop_penalty(&loop) == 4 && pkr_loop_cost(&loop) == 5);
  psi.told = 2;
  psi.answer = 0.5;
  d_psi.told = 3;
  CHECK(pkr_psi_told(&psi) == 2 && pkr_psi_value(&psi) == 0.5 && pkr_d_psi_told(&d_psi) == 3);
  const pkr_loop_settings settings = {2, 0, 1, 0, 7, 5, 1, 0.5, 0.25, 0.125, 0.75, 2, 0.5, 0.25};
  const double u[2] = {1, 2}, xi[1] = {3};
  both.within.settings = settings;
  memset(&loop, 0, sizeof loop);
  CHECK(pkr_loop_start(&both.run, &both.within.settings, u, 2, xi, 1) == pkr_loop_start(&loop, &settings, u, 2, xi, 1));
  CHECK(both.run.alm.max_inner_iterations == 7 && both.run.alm.sufficient_decrease_coeff == 0.25 && pkr_loop_question(&both.run) == pkr_loop_question(&loop));
}

/* ---- Structs that no start made. */

/* Numbers of a run of any bytes, in part such that its phase and sizes are in range. */
static void any_numbers(void *run, size_t size, int in_range) {
  unsigned char *bytes = run;
  for (size_t i = 0; i < size; i++) bytes[i] = (unsigned char)next();
  if (!in_range) return;
  d.n = 1 + below(PKR_PLACES), d.n1 = below(PKR_MAPPINGS + 1), d.n2 = below(PKR_MAPPINGS + 1);
  pkr_inner_fields *f = run;
  if (kind <= LOOP) {
    f->phase = (uint32_t)below(17), f->n = d.n, f->max_iter = below(10001), f->left = below(20), f->iterations = below(20), f->rounds = below(12);
  }
  if (kind == LOOP) {
    pkr_loop_fields *l = &((pkr_loop *)run)->alm;
    l->phase = below(2) ? 3 : (uint32_t)below(8), l->n = d.n, l->n1 = d.n1, l->n2 = d.n2, l->max_inner_iterations = f->max_iter;
    l->max_outer_iterations = below(1001), l->left = below(20), l->outer = below(20), l->inner = below(20), l->found = below(20);
  }
  if (kind == PSI) ((pkr_psi *)run)->phase = (uint32_t)below(5), ((pkr_psi *)run)->n = d.n, ((pkr_psi *)run)->n1 = d.n1, ((pkr_psi *)run)->n2 = d.n2;
  if (kind == D_PSI) ((pkr_d_psi *)run)->phase = (uint32_t)below(7), ((pkr_d_psi *)run)->n = d.n, ((pkr_d_psi *)run)->n1 = d.n1, ((pkr_d_psi *)run)->n2 = d.n2;
}

static void hostile(int whose) {
  static const size_t sizes[KINDS] = {sizeof(pkr_inner), sizeof(pkr_loop), sizeof(pkr_psi), sizeof(pkr_d_psi)};
  double v[PKR_PLACES];
  const int in_range = below(4) != 0;
  kind = whose;
  d.n = below(PKR_PLACES + 1), d.n1 = d.n2 = 0;
  d.size = sizes[kind];
  d.run = room(d.size);
  any_numbers(d.run, d.size, in_range);
  d.xis = pkr_xi_places(d.n1, d.n2);
  d.plans = kind == PSI ? 0 : d.n;
  d.lents = kind == LOOP ? d.xis : 0;
  d.plan = room(d.plans * sizeof *d.plan);
  d.xi = room(d.lents * sizeof *d.xi);
  for (size_t i = 0; i < d.plans; i++) d.plan[i] = 77;
  for (size_t i = 0; i < d.lents; i++) d.xi[i] = 77;
  for (size_t i = 0; i < PKR_PLACES; i++) v[i] = below(3) ? real() : odd();
  for (size_t turn = 0; turn < 12; turn++) {
    const uint32_t q = question();
    CHECK(q <= PKR_NO_QUESTION);
    if (q == PKR_NO_QUESTION) {
      refused(PKR_OVER, (int)below(2), (uint32_t)below(7), v, below(PKR_PLACES), d.plans, d.lents);
      break;
    }
    const uint32_t of = asks_number(q) ? PKR_NUMBER : asks_time(q) ? PKR_YES : PKR_VECTOR;
    const uint32_t got = answer((int)below(2), of, below(3) ? real() : odd(), 5, v, wanted(q), d.plans, d.lents);
    CHECK(got <= 18);
  }
  free(d.run);
  free(d.plan);
  free(d.xi);
}

static void zeros(void) {
  static pkr_loop none; /* the largest */
  const double v[PKR_PLACES] = {0};
  double at = 0;
  for (kind = INNER; kind < KINDS; kind++) {
    d = (play_data){.run = &none, .size = sizeof none, .plan = &at, .xi = &at};
    CHECK(question() == PKR_NO_QUESTION);
    for (uint32_t of = 0; of < 7; of++) refused(PKR_OVER, 0, of, v, of, 0, 0);
    refused(PKR_OVER, 1, PKR_NUMBER, v, 0, 0, 0);
    refused(PKR_OVER, 1, PKR_VECTOR, v, 0, 0, 0);
    CHECK(points(&at, 0, &at, 0) == 6);
  }
}

int main(int words, char **word) {
  static const char *const names[] = {"inner solve", "loop", "psi", "d_psi"};
  static const int phases[] = {17, 8, 5, 7};
  const size_t runs = words > 1 ? strtoul(word[1], NULL, 10) : 400;
  places();
  reads();
  doing = "a struct of zeros";
  zeros();
  for (int i = 0; i < KINDS; i++) {
    doing = names[i];
    for (size_t j = 0; j < runs; j++) play(i, j % 2 == 1);
    for (size_t j = 0; j < runs; j++) hostile(i);
    for (int p = 1; runs >= 400 && p < phases[i]; p++) {
      if (!seen[i][p]) fprintf(stderr, "%s: phase %d did not come up\n", names[i], p), exit(1);
    }
  }
  puts("the calls for C do what the header says");
  return 0;
}
