/* An archive whose runs are structs of named fields with one board. */
#include "pozkerrin.h"
#include "side.h"

#include <string.h>

static struct {
  pkr_inner inner;
  pkr_loop loop;
  pkr_psi psi;
  pkr_d_psi d_psi;
} r;

static void fill(int kind, const double *board) {
  memset(&r, 0, sizeof r);
  if (kind == INNER) memcpy(r.inner.board, board, sizeof r.inner.board);
  if (kind == LOOP) memcpy(r.loop.board, board, sizeof r.loop.board);
  if (kind == PSI) memcpy(r.psi.board, board, sizeof r.psi.board);
  if (kind == D_PSI) memcpy(r.d_psi.board, board, sizeof r.d_psi.board);
}

static gave told(int kind, uint32_t number) {
  if (kind == INNER) return (gave){number, r.inner.inner.outcome, r.inner.inner.told};
  if (kind == LOOP) return (gave){number, r.loop.inner.outcome, r.loop.inner.told};
  if (kind == PSI) return (gave){number, r.psi.outcome, r.psi.told};
  return (gave){number, r.d_psi.outcome, r.d_psi.told};
}

static gave start(int kind, const given *s, const double *u, size_t us, const double *xi, size_t xis) {
  const pkr_inner_settings a = {s->n, s->max_inner, s->limited, s->tolerance, s->has_akkt, s->akkt_tolerance};
  const pkr_loop_settings b = {s->n, s->n1, s->n2, s->has_set_y, s->max_inner, s->max_outer, s->limited, s->tolerance, s->epsilon, s->delta, s->initial,
      s->penalty_factor, s->epsilon_factor, s->coefficient};
  if (kind == INNER) return told(kind, pkr_inner_start(&r.inner, &a, u, us));
  if (kind == LOOP) return told(kind, pkr_loop_start(&r.loop, &b, u, us, xi, xis));
  if (kind == PSI) return told(kind, pkr_psi_start(&r.psi, s->n, s->n1, s->n2, u, us, xi, xis));
  return told(kind, pkr_d_psi_start(&r.d_psi, s->n, s->n1, s->n2, u, us, xi, xis));
}

static gave answer(int kind, int quick, uint32_t of, double x, uint32_t code, const double *v, size_t vs, double *plan, size_t plans, double *xi, size_t xis) {
  if (kind == INNER && quick && of == PKR_NUMBER) return told(kind, pkr_inner_number(&r.inner, x, plan, plans));
  if (kind == INNER && quick && of == PKR_VECTOR) return told(kind, pkr_inner_vector(&r.inner, v, vs, plan, plans));
  if (kind == INNER) return told(kind, pkr_inner_answer(&r.inner, of, x, code, v, vs, plan, plans));
  if (kind == LOOP && quick && of == PKR_NUMBER) return told(kind, pkr_loop_number(&r.loop, x, plan, plans, xi, xis));
  if (kind == LOOP && quick && of == PKR_VECTOR) return told(kind, pkr_loop_vector(&r.loop, v, vs, plan, plans, xi, xis));
  if (kind == LOOP) return told(kind, pkr_loop_answer(&r.loop, of, x, code, v, vs, plan, plans, xi, xis));
  if (kind == PSI) return told(kind, pkr_psi_answer(&r.psi, of, x, code, v, vs));
  return told(kind, pkr_d_psi_answer(&r.d_psi, of, x, code, v, vs, plan, plans));
}

static uint32_t points(int kind, double *first, size_t firsts, double *second, size_t seconds) {
  if (kind == INNER) return pkr_inner_points(&r.inner, first, firsts, second, seconds);
  if (kind == LOOP) return pkr_loop_points(&r.loop, first, firsts, second, seconds);
  if (kind == PSI) return pkr_psi_points(&r.psi, first, firsts, second, seconds);
  return pkr_d_psi_points(&r.d_psi, first, firsts, second, seconds);
}

static const double *point(int kind) { return kind == INNER ? pkr_inner_point(&r.inner) : pkr_loop_point(&r.loop); }

static void show_inner(const pkr_inner_fields *f, shown *s) {
  const uint32_t words[] = {f->phase, f->status, f->forget != 0, f->limited != 0};
  const size_t counts[] = {f->left, f->iterations, f->rounds, f->n, f->max_iter};
  const double numbers[] = {f->cost_value, f->lipschitz_constant, f->gamma, f->sigma, f->norm_gamma_fpr, f->best_norm_gamma_fpr, f->tau, f->rhs_ls, f->norm_h,
      f->tolerance, f->has_akkt ? f->akkt_tolerance : 0};
  memcpy(s->words, words, sizeof words);
  memcpy(s->counts, counts, sizeof counts);
  memcpy(s->numbers, numbers, sizeof numbers);
}

static void show_loop(const pkr_loop_fields *f, shown *s) {
  const uint32_t words[] = {f->phase, f->status, f->has_set_y != 0, f->limited != 0};
  const size_t counts[] = {f->left, f->outer, f->inner, f->found, f->n, f->n1, f->n2, f->max_inner_iterations, f->max_outer_iterations};
  const double numbers[] = {f->penalty, f->akkt_tolerance, f->delta_y_norm, f->f2_norm, f->delta_y_norm_plus, f->f2_norm_plus, f->norm_fpr, f->tolerance, f->epsilon_tolerance,
      f->delta_tolerance, f->initial_inner_tolerance, f->penalty_update_factor, f->epsilon_update_factor, f->sufficient_decrease_coeff};
  const double ends[] = {f->end.norm_fpr, f->end.delta_y_norm, f->end.f2_norm, f->end.penalty, f->end.cost};
  memcpy(s->words + 4, words, sizeof words);
  memcpy(s->counts + 5, counts, sizeof counts);
  memcpy(s->numbers + 11, numbers, sizeof numbers);
  memcpy(s->ends, ends, sizeof ends);
  s->end_counts[0] = f->end.inner_iterations, s->end_counts[1] = f->end.outer_iterations;
}

static void show(int kind, shown *s) {
  memset(s, 0, sizeof *s);
  if (kind == INNER) {
    show_inner(&r.inner.inner, s);
    s->end_counts[0] = r.inner.inner.end.iterations;
    s->ends[0] = r.inner.inner.end.norm_fpr, s->ends[1] = r.inner.inner.end.cost_value;
    memcpy(s->board, r.inner.board, sizeof r.inner.board);
  } else if (kind == LOOP) {
    show_inner(&r.loop.inner, s);
    show_loop(&r.loop.alm, s);
    memcpy(s->board, r.loop.board, sizeof r.loop.board);
  } else if (kind == PSI) {
    s->words[0] = r.psi.phase;
    s->counts[0] = r.psi.n, s->counts[1] = r.psi.n1, s->counts[2] = r.psi.n2;
    s->numbers[0] = r.psi.c, s->numbers[1] = r.psi.value, s->ends[0] = r.psi.answer;
    memcpy(s->board, r.psi.board, sizeof r.psi.board);
  } else {
    s->words[0] = r.d_psi.phase;
    s->counts[0] = r.d_psi.n, s->counts[1] = r.d_psi.n1, s->counts[2] = r.d_psi.n2;
    s->numbers[0] = r.d_psi.c;
    memcpy(s->board, r.d_psi.board, sizeof r.d_psi.board);
  }
}

const side library_side = {fill, start, answer, points, point, show};
