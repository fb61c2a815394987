/* Solves through the C library: the point of each question where it lies, or copied for psi and d_psi; xi copied; the callback; the answer. */
#include "bench.h"
#include "pozkerrin.h"

#include <stdio.h>
#include <stdlib.h>
#include <string.h>

static void stop(const char *what, uint32_t number) {
  fprintf(stderr, "bench: %s by %u\n", what, (unsigned)number);
  exit(1);
}

void library_inner(const callbacks *c, const task *t, result *r, size_t *asked) {
  static pkr_inner run;
  const pkr_inner_settings s = {.n = t->n, .max_iter = t->max_inner, .tolerance = t->tolerance};
  double v[64];
  const size_t n = t->n;
  uint32_t got = pkr_inner_start(&run, &s, t->u, n);
  while (got == 0 && run.inner.outcome == PKR_ASKED) {
    const uint32_t question = run.inner.told;
    const double *at = pkr_inner_point(&run);
    if (asked) asked[question]++;
    switch (question) {
      case PKR_COST:
        got = pkr_inner_number(&run, c->cost(at, n), r->plan, n);
        break;
      case PKR_GRADIENT:
        c->gradient(at, v, n);
        got = pkr_inner_vector(&run, v, n, r->plan, n);
        break;
      case PKR_PROJECT:
        c->project(at, v, n);
        got = pkr_inner_vector(&run, v, n, r->plan, n);
        break;
      default: /* DIRECTION, with or without forgetting */
        c->direction(question == PKR_DIRECTION_FORGET, at, pkr_inner_u(&run), v, n);
        got = pkr_inner_vector(&run, v, n, r->plan, n);
        break;
    }
  }
  if (got != 0) stop("inner solve refused", got);
  r->end = run.inner.told;
  r->inner = run.inner.end.iterations;
  r->norm = run.inner.end.norm_fpr;
  r->cost = run.inner.end.cost_value;
}

void library_loop(const callbacks *c, const task *t, result *r, size_t *asked) {
  static pkr_loop run;
  const pkr_loop_settings s = {.n = t->n, .n1 = t->n1, .n2 = t->n2, .max_inner_iterations = t->max_inner,
      .max_outer_iterations = t->max_outer, .tolerance = t->tolerance, .epsilon_tolerance = t->epsilon, .delta_tolerance = t->delta,
      .initial_inner_tolerance = t->initial, .penalty_update_factor = t->penalty_factor, .epsilon_update_factor = t->epsilon_factor,
      .sufficient_decrease_coeff = t->coefficient};
  double xi[33], v[64], lent[33];
  int fresh = 1; /* whether xi may be another: not within one inner solve */
  const size_t n = t->n, n1 = t->n1, n2 = t->n2, xis = pkr_xi_places(n1, n2);
  uint32_t refused = 0, got = pkr_loop_start(&run, &s, t->u, n, t->xi, xis);
  while (got == 0 && run.inner.outcome == PKR_ASKED) {
    const uint32_t question = run.inner.told;
    const double *at = pkr_loop_point(&run);
    if (asked) asked[question]++;
    if (question > PKR_TIME) fresh = 1;
    switch (question) {
      case PKR_COST:
      case PKR_LAST_COST:
        if (fresh) refused = pkr_loop_second(&run, xi, xis);
        fresh = 0;
        got = pkr_loop_number(&run, c->psi(at, xi, n), r->plan, n, lent, xis);
        break;
      case PKR_GRADIENT:
        if (fresh) refused = pkr_loop_second(&run, xi, xis);
        fresh = 0;
        c->d_psi(at, xi, v, n);
        got = pkr_loop_vector(&run, v, n, r->plan, n, lent, xis);
        break;
      case PKR_PROJECT:
        c->project(at, v, n);
        got = pkr_loop_vector(&run, v, n, r->plan, n, lent, xis);
        break;
      case PKR_DIRECTION:
      case PKR_DIRECTION_FORGET:
        c->direction(question == PKR_DIRECTION_FORGET, at, pkr_loop_u(&run), v, n);
        got = pkr_loop_vector(&run, v, n, r->plan, n, lent, xis);
        break;
      case PKR_F1:
        c->f1(at, v, n);
        got = pkr_loop_vector(&run, v, n1, r->plan, n, lent, xis);
        break;
      case PKR_PROJECT_C:
        c->project_c(at, v, n1);
        got = pkr_loop_vector(&run, v, n1, r->plan, n, lent, xis);
        break;
      default: /* F2 */
        c->f2(at, v, n);
        got = pkr_loop_vector(&run, v, n2, r->plan, n, lent, xis);
        break;
    }
    if (refused) stop("xi refused", refused);
  }
  if (got != 0) stop("loop refused", got);
  r->end = run.inner.told;
  r->inner = run.alm.end.inner_iterations;
  r->outer = run.alm.end.outer_iterations;
  r->norm = run.alm.end.norm_fpr;
  r->cost = run.alm.end.cost;
  r->penalty = run.alm.end.penalty;
  r->delta_y = run.alm.end.delta_y_norm;
  r->f2 = run.alm.end.f2_norm;
  memcpy(r->y, lent + 1, n1 * sizeof *lent);
}

/* psi and d_psi: the points copied. */
void library_psi(const callbacks *c, const task *t, result *r, size_t *asked) {
  static pkr_psi run;
  double at[64], none, v[64];
  const size_t n = t->n, n1 = t->n1, n2 = t->n2;
  uint32_t refused = 0;
  uint32_t got = pkr_psi_start(&run, n, n1, n2, t->u, n, t->xi, pkr_xi_places(n1, n2));
  while (got == 0 && run.outcome == PKR_ASKED) {
    const uint32_t question = run.told;
    const size_t places = question == PKR_PROJECT_C ? n1 : n;
    refused |= pkr_psi_points(&run, at, places, &none, 0);
    if (asked) asked[question]++;
    switch (question) {
      case PKR_COST:
        got = pkr_psi_answer(&run, PKR_NUMBER, c->cost(at, n), 0, v, 0);
        break;
      case PKR_F1:
        c->f1(at, v, n);
        got = pkr_psi_answer(&run, PKR_VECTOR, 0, 0, v, n1);
        break;
      case PKR_PROJECT_C:
        c->project_c(at, v, n1);
        got = pkr_psi_answer(&run, PKR_VECTOR, 0, 0, v, n1);
        break;
      default: /* F2 */
        c->f2(at, v, n);
        got = pkr_psi_answer(&run, PKR_VECTOR, 0, 0, v, n2);
        break;
    }
  }
  if (got != 0 || refused) stop("psi refused", got);
  r->cost = run.answer;
}

void library_d_psi(const callbacks *c, const task *t, result *r, size_t *asked) {
  static pkr_d_psi run;
  double at[64], d[64], v[64];
  const size_t n = t->n, n1 = t->n1, n2 = t->n2;
  uint32_t refused = 0;
  uint32_t got = pkr_d_psi_start(&run, n, n1, n2, t->u, n, t->xi, pkr_xi_places(n1, n2));
  while (got == 0 && run.outcome == PKR_ASKED) {
    const uint32_t question = run.told;
    const size_t places = question == PKR_PROJECT_C ? n1 : n, seconds = question == PKR_JF1T ? n1 : question == PKR_JF2T ? n2 : 0;
    refused |= pkr_d_psi_points(&run, at, places, d, seconds);
    if (asked) asked[question]++;
    switch (question) {
      case PKR_GRADIENT:
        c->gradient(at, v, n);
        got = pkr_d_psi_answer(&run, PKR_VECTOR, 0, 0, v, n, r->plan, n);
        break;
      case PKR_F1:
        c->f1(at, v, n);
        got = pkr_d_psi_answer(&run, PKR_VECTOR, 0, 0, v, n1, r->plan, n);
        break;
      case PKR_PROJECT_C:
        c->project_c(at, v, n1);
        got = pkr_d_psi_answer(&run, PKR_VECTOR, 0, 0, v, n1, r->plan, n);
        break;
      case PKR_JF1T:
        c->jf1t(at, d, v, n);
        got = pkr_d_psi_answer(&run, PKR_VECTOR, 0, 0, v, n, r->plan, n);
        break;
      case PKR_F2:
        c->f2(at, v, n);
        got = pkr_d_psi_answer(&run, PKR_VECTOR, 0, 0, v, n2, r->plan, n);
        break;
      default: /* JF2T */
        c->jf2t(at, d, v, n);
        got = pkr_d_psi_answer(&run, PKR_VECTOR, 0, 0, v, n, r->plan, n);
        break;
    }
  }
  if (got != 0 || refused) stop("d_psi refused", got);
}
