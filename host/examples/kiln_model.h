/* The kiln of the example: its thermal model, what a plan costs, and the direction rule. No part of it is the engine's.
 *
 * A plan gives the heater's share of full power in each of 24 half hours. The temperature follows it by a first-order law, and a plan
 * costs the squared distance from a firing curve, and a little for power. */
#ifndef KILN_MODEL_H
#define KILN_MODEL_H
#include <stddef.h>

enum { KILN_PERIODS = 24, KILN_MEMORY = 12 };

static const double KILN_ROOM = 20;    /* degrees, also at the start */
static const double KILN_KEEP = 0.92;  /* share of the distance from the room that is left after a period */
static const double KILN_HEAT = 110;   /* degrees that full power gives in a period */
static const double KILN_POWER = 0.01; /* cost of power */

/* The firing curve: degrees at the end of each period. */
static const double KILN_CURVE[KILN_PERIODS] = {
    60,  120, 180, 240, 300, 360, 420, 480, 540,  600,  670,  740,
    810, 880, 930, 970, 1000, 1020, 1020, 1020, 1020, 940, 820, 700};

/* The temperature at the end of each period. */
static inline void kiln_temperatures(const double *u, double *t) {
  double now = KILN_ROOM;
  for (size_t i = 0; i < KILN_PERIODS; i++) {
    now = KILN_KEEP * now + ((1 - KILN_KEEP) * KILN_ROOM + KILN_HEAT * u[i]);
    t[i] = now;
  }
}

static inline double kiln_cost(const double *u) {
  double t[KILN_PERIODS], sum = 0;
  kiln_temperatures(u, t);
  for (size_t i = 0; i < KILN_PERIODS; i++) {
    const double off = (t[i] - KILN_CURVE[i]) / 100;
    sum = sum + off * off + KILN_POWER * u[i] * u[i];
  }
  return sum;
}

/* The exact gradient: one sweep forward, and one back for what a degree at the end of a period costs from there on. */
static inline void kiln_gradient(const double *u, double *g) {
  double t[KILN_PERIODS], degree = 0;
  kiln_temperatures(u, t);
  for (size_t i = KILN_PERIODS; i-- > 0;) {
    degree = KILN_KEEP * degree + 2 * (t[i] - KILN_CURVE[i]) / 10000;
    g[i] = KILN_HEAT * degree + 2 * KILN_POWER * u[i];
  }
}

/* Onto the box: each share between 0 and 1. */
static inline void kiln_project(const double *p, double *u) {
  for (size_t i = 0; i < KILN_PERIODS; i++) u[i] = p[i] < 0 ? 0 : p[i] > 1 ? 1 : p[i];
}

/* In four partial sums, which a processor adds side by side. */
static inline double kiln_dot(const double *a, const double *b) {
  double sum[4] = {0, 0, 0, 0};
  for (size_t i = 0; i < KILN_PERIODS; i += 4) {
    for (size_t j = 0; j < 4; j++) sum[j] = sum[j] + a[i + j] * b[i + j];
  }
  return (sum[0] + sum[1]) + (sum[2] + sum[3]);
}

/* The latest changes of u (s) and of the residual (y), with 1 / (s · y), in a ring whose latest stands before place next. */
typedef struct {
  size_t pairs, next;
  int has_last;
  double last_u[KILN_PERIODS], last_r[KILN_PERIODS];
  double s[KILN_MEMORY][KILN_PERIODS], y[KILN_MEMORY][KILN_PERIODS], rho[KILN_MEMORY], scale;
} kiln_memory;

/* Keeps the change since the last residual at the periods that are free, where it shows a positive curvature. */
static inline void kiln_remember(kiln_memory *m, const double *free, const double *r, const double *u) {
  if (m->has_last) {
    double *s = m->s[m->next], *y = m->y[m->next];
    for (size_t i = 0; i < KILN_PERIODS; i++) {
      s[i] = free[i] * (u[i] - m->last_u[i]);
      y[i] = free[i] * (r[i] - m->last_r[i]);
    }
    const double sy = kiln_dot(s, y);
    if (sy > 1e-10 * kiln_dot(s, s)) {
      m->rho[m->next] = 1 / sy;
      m->scale = sy / kiln_dot(y, y);
      m->next = m->next + 1 == KILN_MEMORY ? 0 : m->next + 1;
      if (m->pairs < KILN_MEMORY) m->pairs++;
    }
  }
  for (size_t i = 0; i < KILN_PERIODS; i++) {
    m->last_u[i] = u[i];
    m->last_r[i] = r[i];
  }
  m->has_last = 1;
}

/* The direction for the residual r at u: r itself where the half step u - r lies at a bound, L-BFGS over the periods that are free. Where
 * forget is not 0, earlier pairs are dropped first. */
static inline void kiln_direction(kiln_memory *m, int forget, const double *r, const double *u, double *d) {
  double free[KILN_PERIODS], a[KILN_MEMORY];
  if (forget) m->pairs = m->next = 0, m->has_last = 0, m->scale = 1;
  for (size_t i = 0; i < KILN_PERIODS; i++) {
    free[i] = u[i] - r[i] > 0 && u[i] - r[i] < 1 ? 1 : 0;
    d[i] = free[i] * r[i];
  }
  kiln_remember(m, free, r, u);
  size_t place = m->next;
  for (size_t j = 0; j < m->pairs; j++) {
    place = place == 0 ? KILN_MEMORY - 1 : place - 1;
    a[j] = m->rho[place] * kiln_dot(m->s[place], d);
    for (size_t i = 0; i < KILN_PERIODS; i++) d[i] = d[i] - a[j] * m->y[place][i];
  }
  for (size_t i = 0; i < KILN_PERIODS; i++) d[i] = m->scale * d[i];
  for (size_t j = m->pairs; j-- > 0;) {
    const double b = a[j] - m->rho[place] * kiln_dot(m->y[place], d);
    for (size_t i = 0; i < KILN_PERIODS; i++) d[i] = d[i] + b * m->s[place][i];
    place = place + 1 == KILN_MEMORY ? 0 : place + 1;
  }
  for (size_t i = 0; i < KILN_PERIODS; i++) d[i] = free[i] > 0 ? d[i] : r[i];
}

#endif
