/* An archive whose numbers and vectors of a run lie in arrays of their own, as they did up to commit cef5bc60. */
#include "pozkerrin.h"
#include "side.h"

#include <string.h>

static struct {
  pkr_inner inner;
  pkr_loop loop;
  pkr_psi psi;
  pkr_d_psi d_psi;
} r;

/* The first of the vectors of a run, which lie one after the other. */
static double *vectors(int kind, size_t *bytes) {
  *bytes = (kind == INNER ? 9 : kind == LOOP ? 12 : kind == PSI ? 4 : 6) * sizeof(pkr_vector);
  return kind == INNER ? r.inner.u : kind == LOOP ? r.loop.u : kind == PSI ? r.psi.u : r.d_psi.u;
}

static void fill(int kind, const double *board) {
  size_t bytes;
  memset(&r, 0, sizeof r);
  double *to = vectors(kind, &bytes);
  memcpy(to, board, bytes);
}

static gave told(int kind, uint32_t got) {
  const uint32_t w = kind == INNER ? r.inner.w[1] : kind == LOOP ? r.loop.w[1] : kind == PSI ? r.psi.w[1] : r.d_psi.w[1];
  return (gave){got == PKR_REFUSED ? w : got == PKR_FAILED ? 9 : 0, got, got == PKR_ENDED && kind >= PSI ? 0 : w};
}

static gave start(int kind, const given *s, const double *u, size_t us, const double *xi, size_t xis) {
  const pkr_inner_settings a = {s->n, s->max_inner, s->limited, s->tolerance, s->has_akkt, s->akkt_tolerance};
  const pkr_loop_settings b = {s->n, s->n1, s->n2, s->has_set_y, s->max_inner, s->max_outer, s->limited, s->tolerance, s->epsilon, s->delta, s->initial,
      s->penalty_factor, s->epsilon_factor, s->coefficient};
  if (kind == INNER) return told(kind, pkr_inner_start(&r.inner, &a, u, us));
  if (kind == LOOP) return told(kind, pkr_loop_start(&r.loop, &b, u, us, xi, xis));
  if (kind == PSI) return told(kind, pkr_psi_start(&r.psi, s->n, s->n1, s->n2, u, us, xi, xis));
  return told(kind, pkr_d_psi_start(&r.d_psi, s->n, s->n1, s->n2, u, us, xi, xis));
}

static gave answer(int kind, int quick, uint32_t of, double x, uint32_t code, const double *v, size_t vs, double *plan, size_t plans, double *xi, size_t xis) {
  if (kind == INNER && quick && of == PKR_NUMBER) return told(kind, pkr_inner_number(&r.inner, x, plan, plans));
  if (kind == INNER && quick && of == PKR_VECTOR) return told(kind, pkr_inner_vector(&r.inner, v, vs, plan, plans));
  if (kind == INNER) return told(kind, pkr_inner_answer(&r.inner, of, x, code, v, vs, plan, plans));
  if (kind == LOOP && quick && of == PKR_NUMBER) return told(kind, pkr_loop_number(&r.loop, x, plan, plans, xi, xis));
  if (kind == LOOP && quick && of == PKR_VECTOR) return told(kind, pkr_loop_vector(&r.loop, v, vs, plan, plans, xi, xis));
  if (kind == LOOP) return told(kind, pkr_loop_answer(&r.loop, of, x, code, v, vs, plan, plans, xi, xis));
  if (kind == PSI) return told(kind, pkr_psi_answer(&r.psi, of, x, code, v, vs));
  return told(kind, pkr_d_psi_answer(&r.d_psi, of, x, code, v, vs, plan, plans));
}

static uint32_t points(int kind, double *first, size_t firsts, double *second, size_t seconds) {
  if (kind == INNER) return pkr_inner_points(&r.inner, first, firsts, second, seconds);
  if (kind == LOOP) return pkr_loop_points(&r.loop, first, firsts, second, seconds);
  if (kind == PSI) return pkr_psi_points(&r.psi, first, firsts, second, seconds);
  return pkr_d_psi_points(&r.d_psi, first, firsts, second, seconds);
}

static const double *point(int kind) { return kind == INNER ? pkr_inner_point(&r.inner) : pkr_loop_point(&r.loop); }

static void show_inner(const uint32_t *w, const size_t *k, const double *f, shown *s) {
  const uint32_t words[] = {w[0], w[2], w[3] != 0, w[4] != 0};
  memcpy(s->words, words, sizeof words);
  memcpy(s->counts, k, 5 * sizeof *k);
  memcpy(s->numbers, f, 11 * sizeof *f);
  if (!w[5]) s->numbers[10] = 0;
}

static void show_loop(const pkr_loop *l, shown *s) {
  const uint32_t words[] = {l->lw[0], l->lw[1], l->lw[2] != 0, l->lw[3] != 0};
  const double ends[] = {l->f[11], l->lf[14], l->lf[15], l->lf[16], l->f[12]};
  memcpy(s->words + 4, words, sizeof words);
  memcpy(s->counts + 5, l->lk, 9 * sizeof *l->lk);
  memcpy(s->numbers + 11, l->lf, 14 * sizeof *l->lf);
  memcpy(s->ends, ends, sizeof ends);
  s->end_counts[0] = l->k[5], s->end_counts[1] = l->lk[9];
}

static void show(int kind, shown *s) {
  size_t bytes;
  memset(s, 0, sizeof *s);
  const double *from = vectors(kind, &bytes);
  memcpy(s->board, from, bytes);
  if (kind == INNER) {
    show_inner(r.inner.w, r.inner.k, r.inner.f, s);
    s->end_counts[0] = r.inner.k[5];
    s->ends[0] = r.inner.f[11], s->ends[1] = r.inner.f[12];
  } else if (kind == LOOP) {
    show_inner(r.loop.w, r.loop.k, r.loop.f, s);
    show_loop(&r.loop, s);
  } else {
    const size_t *k = kind == PSI ? r.psi.k : r.d_psi.k;
    s->words[0] = kind == PSI ? r.psi.w[0] : r.d_psi.w[0];
    memcpy(s->counts, k, 3 * sizeof *k);
    s->numbers[0] = kind == PSI ? r.psi.f[0] : r.d_psi.f[0];
    if (kind == PSI) s->numbers[1] = r.psi.f[1], s->ends[0] = r.psi.f[2];
  }
}

const side library_side = {fill, start, answer, points, point, show};
