/* sets [ROUNDS]: the projection on one box and on one ball, its tests included, beside a plain loop in C that tests nothing and an older archive, where it is linked. The results are
 * compared bit by bit, then the sides go in turn, batch by batch, and the least time of each counts, less that of copying the vector, which all need. */
#include <math.h>
#include <stdio.h>
#include <stdlib.h>
#include <string.h>

#include "bench.h"
#include "pozkerrin.h"

enum { CALLS = 2000 };

static double from[PKR_PLACES], v[PKR_PLACES], numbers[2 * PKR_PLACES];

__attribute__((noinline)) static void plain_box(const double *lower, const double *upper, double *x, size_t n) {
  for (size_t i = 0; i < n; i++) x[i] = x[i] < lower[i] ? lower[i] : x[i] > upper[i] ? upper[i] : x[i];
}

__attribute__((noinline)) static void plain_ball(const double *centre, double radius, double *x, size_t n) {
  double sum = 0;
  for (size_t i = 0; i < n; i++) {
    const double difference = x[i] - centre[i];
    sum += difference * difference;
  }
  const double far = sqrt(sum);
  if (far > radius) {
    for (size_t i = 0; i < n; i++) x[i] = centre[i] + radius * ((x[i] - centre[i]) / far);
  }
}

static void copy_alone(size_t n) { (void)n; }
static void plain_box_of(size_t n) { plain_box(numbers, numbers + n, v, n); }
static void plain_ball_of(size_t n) { plain_ball(numbers + 1, numbers[0], v, n); }

static void our_box(size_t n) {
  const pkr_set set = pkr_box(n);
  if (pkr_project(&set, 1, numbers, 2 * n, v, n) != 0) abort();
}

static void our_ball(size_t n) {
  const pkr_set set = pkr_ball(n);
  if (pkr_project(&set, 1, numbers, n + 1, v, n) != 0) abort();
}

#ifdef HAVE_OLD
uint32_t old_pozkerrin_project(const pkr_set *sets, size_t count, const double *numbers, size_t have, double *v, size_t vs);

static void old_box(size_t n) {
  const pkr_set set = pkr_box(n);
  if (old_pozkerrin_project(&set, 1, numbers, 2 * n, v, n) != 0) abort();
}

static void old_ball(size_t n) {
  const pkr_set set = pkr_ball(n);
  if (old_pozkerrin_project(&set, 1, numbers, n + 1, v, n) != 0) abort();
}
#endif

/* The projections on a set, by side. */
typedef void (*projections[])(size_t n);
static const projections boxes = {plain_box_of, our_box,
#ifdef HAVE_OLD
    old_box
#endif
};
static const projections balls = {plain_ball_of, our_ball,
#ifdef HAVE_OLD
    old_ball
#endif
};
enum { SIDES = sizeof boxes / sizeof *boxes };

/* ns of a batch */
static double batch(void (*project)(size_t n), size_t n) {
  const double began = now_ns();
  for (int i = 0; i < CALLS; i++) {
    memcpy(v, from, n * sizeof *v);
    __asm__ volatile("" ::: "memory");
    project(n);
    __asm__ volatile("" ::: "memory");
  }
  return now_ns() - began;
}

static void compare(const char *name, size_t n, size_t rounds, const projections sides) {
  double alone = 1e30, least[SIDES], first[PKR_PLACES];
  for (size_t s = 0; s < SIDES; s++) {
    least[s] = 1e30;
    memcpy(v, from, sizeof v);
    sides[s](n);
    if (s == 0) memcpy(first, v, sizeof v);
    if (memcmp(first, v, sizeof v) != 0) {
      printf("| %s, n = %zu | the results differ |\n", name, n);
      return;
    }
  }
  for (size_t i = 0; i < rounds; i++) {
    const double copied = batch(copy_alone, n);
    if (copied < alone) alone = copied;
    for (size_t s = 0; s < SIDES; s++) {
      const double took = batch(sides[s], n);
      if (took < least[s]) least[s] = took;
    }
  }
  printf("| %s, n = %zu |", name, n);
  for (size_t s = 0; s < SIDES; s++) printf(" %.1f |", (least[s] - alone) / CALLS);
  for (size_t s = 0; s < SIDES; s++) s != 1 ? printf(" %.2f |", (least[1] - alone) / (least[s] - alone)) : 0;
  puts("");
}

int main(int words, char **word) {
  const size_t rounds = words > 1 ? strtoul(word[1], NULL, 10) : 2000, sizes[] = {4, 16, 24, 64};
  static const char *const heads[] = {" plain loop |", " C library |", " older C library |", " C library / plain loop |", " C library / older C library |"};
  printf("| ns a projection |");
  for (size_t i = 0; i < 5; i++) {
    if (SIDES > 2 || (i != 2 && i != 4)) printf("%s", heads[i]);
  }
  puts(SIDES > 2 ? "\n|---|---|---|---|---|---|" : "\n|---|---|---|---|");
  for (int k = 0; k < 4; k++) {
    const size_t n = sizes[k];
    for (size_t i = 0; i < n; i++) {
      from[i] = (double)((i * 37 + 11) % 64) / 16 - 2; /* from -2 to 2: a half of the entries lie beyond a bound */
      numbers[i] = -1;
      numbers[n + i] = 1;
    }
    compare("box", n, rounds, boxes);
    for (size_t i = 0; i < n; i++) numbers[1 + i] = 0.125;
    numbers[0] = 1;
    compare("ball, outside", n, rounds, balls);
    numbers[0] = 100;
    compare("ball, inside", n, rounds, balls);
  }
  return 0;
}
