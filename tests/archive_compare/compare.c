/* compare RUNS [SEED]: plays random runs of each kind on two archives at once, and compares after every call what it has given, the run's numbers and all its vectors, and at every question
 * its points. Answers are those of a quadratic with a box, and in part wild: NaN, infinity, wrong lengths, kinds that were not asked. A NaN is equal to any other. The places of a
 * vector are full of numbers before a start, those behind its length are 0. The numbers of a loop's inner solve are compared while it is under way. */
#include "side.h"

#include <math.h>
#include <stdio.h>
#include <stdlib.h>
#include <string.h>

enum { COST, GRADIENT, PROJECT, DIRECTION, FORGET, TIME, OUTER_TIME, PROJECT_Y, F1, PROJECT_C, F2, LAST_COST, JF1T, JF2T };
enum { NUMBER, VECTOR, YES, NO, FAILURE };
enum { ASKED, ENDED };

static const side *const sides[2] = {&library_side, &old_side};
static const char *const kinds[KINDS] = {"inner solve", "loop", "psi", "d_psi"};
static uint64_t state;
static size_t calls[KINDS], asked, ended[KINDS][3], numbers[32];
static int kind;
static given set;

static uint64_t next(void) {
  state ^= state << 13;
  state ^= state >> 7;
  state ^= state << 17;
  return state;
}

static size_t below(size_t n) { return (size_t)(next() >> 11) % n; }
static double real(void) { return (double)(next() >> 11) / 4503599627370496.0 - 1; } /* from -1 to 1 */

static double wild(void) {
  static const double odd[] = {NAN, INFINITY, -INFINITY, 0.0, -0.0, 1e308, -1e308, 5e-324, 1e-300, 1e9, -1.0};
  return odd[below(sizeof odd / sizeof *odd)];
}

static int same(double a, double b) { return (a != a && b != b) || memcmp(&a, &b, sizeof a) == 0; }

static void differ(const char *what, size_t at) {
  fprintf(stderr, "differ at call %zu of kind %s: %s, %zu\n", calls[kind], kinds[kind], what, at);
  exit(1);
}

static void same_numbers(const char *what, const double *a, const double *b, size_t count) {
  for (size_t i = 0; i < count; i++) {
    if (!same(a[i], b[i])) differ(what, i);
  }
}

/* ---- After a call: what it gave, and the runs. */
/* A loop's inner solve over one board keeps the running numbers of the solve before until it works them out: before DIRECTION (phase 8), of tau and the right side
 * where no candidate is tried (12 to 14). As separate arrays it began them at 0. */
static int stale(const shown *a, size_t i) {
  const uint32_t phase = a->words[0];
  return kind == LOOP && i < 9 && (phase < 8 || ((i == 6 || i == 7) && (phase < 12 || phase > 14)));
}

static void compare_runs(const shown *a, const shown *b, int over) {
  const int inner = kind != LOOP || a->words[4] == 3; /* whether the inner solve's own numbers count */
  for (size_t i = inner ? 0 : 3; i < WORDS; i++) {
    if (a->words[i] != b->words[i]) differ("a word", i);
  }
  for (size_t i = inner ? 0 : 3; i < COUNTS; i++) {
    if (a->counts[i] != b->counts[i]) differ("a count", i);
  }
  for (size_t i = inner ? 0 : 11; i < NUMBERS; i++) {
    if (!stale(a, i) && !same(a->numbers[i], b->numbers[i])) differ("a number", i);
  }
  same_numbers("a place", a->board, b->board, PLACES);
  if (!over) return;
  for (size_t i = 0; i < 2; i++) {
    if (a->end_counts[i] != b->end_counts[i]) differ("a count of an end", i);
  }
  same_numbers("a number of an end", a->ends, b->ends, ENDS);
}

/* 1 while the runs go on. */
static int compare(const gave g[2]) {
  static shown s[2];
  calls[kind]++;
  if (g[0].number != g[1].number) differ("the table's number", g[1].number);
  numbers[g[0].number]++;
  if (g[0].number >= 6 && g[0].number <= 8) return g[0].number != 6;
  if (g[0].outcome != g[1].outcome) differ("the outcome", g[1].outcome);
  if (g[0].told != g[1].told) differ("what is told", g[1].told);
  const int refused_start = (g[0].number >= 1 && g[0].number <= 5) || g[0].number == 19;
  if (refused_start) return 0;
  for (int i = 0; i < 2; i++) sides[i]->show(kind, &s[i]);
  compare_runs(&s[0], &s[1], g[0].outcome == ENDED);
  if (g[0].outcome == ENDED) ended[kind][g[0].told < 3 ? g[0].told : 0]++;
  return g[0].outcome == ASKED;
}

/* ---- The points of the question q, which go into first and second: the same, and the first is where it lies. */
static size_t first_places(uint32_t q) { return q == TIME || q == OUTER_TIME ? 0 : q == PROJECT_Y || q == PROJECT_C ? set.n1 : set.n; }

static size_t second_places(uint32_t q) {
  const size_t xis = set.n1 + set.n2 ? 1 + set.n1 : 0;
  if (q == DIRECTION || q == FORGET) return set.n;
  if (kind == LOOP) return q == COST || q == GRADIENT || q == LAST_COST ? xis : 0;
  return q == JF1T ? set.n1 : q == JF2T ? set.n2 : 0;
}

static void look(uint32_t q, double *first, double *second) {
  double p[2][2][65];
  size_t a = first_places(q), b = second_places(q);
  const int wrong = below(20) == 0;
  if (wrong) a = below(65), b = below(65);
  for (size_t i = 0; i < 65; i++) p[0][0][i] = p[1][0][i] = p[0][1][i] = p[1][1][i] = 77;
  const uint32_t x = sides[0]->points(kind, p[0][0], a, p[0][1], b), y = sides[1]->points(kind, p[1][0], a, p[1][1], b);
  if (x != y || (!wrong && x != 0)) differ("the number of the points", y);
  same_numbers("the first point", p[0][0], p[1][0], 65);
  same_numbers("the second point", p[0][1], p[1][1], 65);
  if (wrong) {
    look(q, first, second);
    return;
  }
  for (int i = 0; i < 2 && kind <= LOOP; i++) same_numbers("the point where it lies", sides[i]->point(kind), p[0][0], a);
  memcpy(first, p[0][0], sizeof p[0][0]);
  memcpy(second, p[0][1], sizeof p[0][1]);
}

/* ---- The model: a quadratic with a box; F1 and F2 are places of u less a number, C is a box. */
static double weight[64], goal[64];

static double box(double x, double half) { return fmax(-half, fmin(half, x)); }
static double mapping(uint32_t q, const double *u, size_t i) { return u[i * (q == F1 ? 1 : 3) % set.n] - (q == F1 ? 0.2 : 0.1); }

static double cost(uint32_t q, const double *u, const double *xi, double *g) {
  double x = 0;
  for (size_t i = 0; i < set.n; i++) {
    const double off = u[i] - goal[i];
    x += 0.5 * weight[i] * off * off;
    g[i] = weight[i] * off;
  }
  if (kind != LOOP || q == LAST_COST || set.n1 + set.n2 == 0) return x;
  for (size_t i = 0; i < set.n1 + set.n2; i++) {
    const int of_f1 = i < set.n1;
    const size_t j = of_f1 ? i : i - set.n1;
    const double t = mapping(of_f1 ? F1 : F2, u, j) + (of_f1 ? xi[1 + j] / xi[0] : 0), off = of_f1 ? t - box(t, 0.1) : t;
    x += 0.5 * xi[0] * off * off;
    g[j * (of_f1 ? 1 : 3) % set.n] += xi[0] * off;
  }
  return x;
}

static size_t wanted(uint32_t q) { return q == PROJECT_Y || q == F1 || q == PROJECT_C ? set.n1 : q == F2 ? set.n2 : set.n; }

static double answered(uint32_t q, const double *first, const double *second, double *v) {
  double g[64] = {0};
  const double x = q <= GRADIENT || q == LAST_COST ? cost(q, first, second, g) : 0;
  for (size_t i = 0; i < wanted(q); i++) {
    v[i] = q == GRADIENT   ? g[i]
        : q == PROJECT     ? box(first[i], 1)
        : q == PROJECT_Y   ? box(first[i], 1e6)
        : q == PROJECT_C   ? box(first[i], 0.1)
        : q == F1 || q == F2 ? mapping(q, first, i)
        : q == JF1T || q == JF2T ? second[0] * (double)(i % 3)
                           : first[i] * (below(4) ? 1 : real());
  }
  return x;
}

/* ---- A run. */
static void settle(void) {
  set = (given){.n = below(20) == 0 ? below(66) : 1 + below(below(3) == 0 ? 64 : 8), .max_inner = 1 + below(12), .max_outer = 1 + below(6), .limited = (uint32_t)below(2),
      .has_akkt = (uint32_t)below(2), .tolerance = pow(10, -1 - (double)below(10))};
  if (kind != INNER) set.n1 = below(below(10) ? 4 : 34), set.n2 = below(below(10) ? 4 : 34);
  set.has_set_y = (uint32_t)below(2) && (set.n1 > 0 || below(10) == 0);
  set.akkt_tolerance = set.has_akkt ? pow(10, -1 - (double)below(8)) : 0;
  set.epsilon = pow(10, -1 - (double)below(5)), set.delta = pow(10, -1 - (double)below(5)), set.initial = pow(10, -(double)below(3));
  set.penalty_factor = 1 + 5 * fabs(real()), set.epsilon_factor = 0.01 + 0.9 * fabs(real()), set.coefficient = 0.01 + 0.9 * fabs(real());
  if (below(40) == 0) set.max_inner = below(2) ? 0 : 10001;
  if (below(40) == 0) set.max_outer = below(2) ? 0 : 1001;
  if (below(40) == 0) set.tolerance = wild();
  if (below(40) == 0) set.delta = wild();
  if (below(40) == 0) set.penalty_factor = wild();
}

/* The places before a start: numbers in each vector, 0 behind its length; of psi and d_psi in u and y alone, since their start over one board
 * puts zeros into the other vectors, which it kept as separate arrays. */
static void prepare(void) {
  double board[PLACES] = {0};
  for (size_t j = 0; j < PLACES / 64; j++) {
    const size_t places = kind == INNER || (kind == LOOP && j < 9) || j == 0 ? set.n : kind == LOOP || j == 1 ? set.n1 : 0;
    for (size_t i = 0; i < places && i < 64; i++) board[64 * j + i] = real();
  }
  for (int i = 0; i < 2; i++) sides[i]->fill(kind, board);
}

static void play(size_t tame) {
  double plans[2][65], xis[2][65], u[65], xi[65], v[65], first[65], second[65];
  gave g[2];
  settle();
  prepare();
  for (size_t i = 0; i < 65; i++) {
    u[i] = 3 * real(), v[i] = 0, xi[i] = i ? real() : pow(10, 2 * real());
    plans[0][i] = plans[1][i] = real(), xis[0][i] = xis[1][i] = real();
  }
  if (below(40) == 0) u[below(set.n ? set.n : 1) % 64] = wild();
  if (below(40) == 0) xi[below(3)] = wild();
  for (size_t i = 0; i < 64; i++) weight[i] = pow(10, 2 * real()), goal[i] = 2 * real();
  const size_t us = below(40) == 0 ? below(65) : set.n <= 64 ? set.n : 64, right = set.n1 + set.n2 ? 1 + set.n1 : 0, xs = below(40) == 0 ? below(40) : right;
  for (int i = 0; i < 2; i++) g[i] = sides[i]->start(kind, &set, u, us, xi, xs);
  int goes = compare(g);
  uint32_t q = goes ? g[0].told : 0;
  for (size_t extra = 0; extra < 3; goes ? 0 : extra++) {
    const int stands = goes;
    double x = 0;
    if (stands) {
      asked++;
      look(q, first, second);
      x = answered(q, first, second, v);
    }
    if (below(tame) == 0) x = below(2) ? wild() : 10 * real();
    if (below(tame) == 0) v[below(wanted(q) + 1) % 64] = below(2) ? wild() : 10 * real();
    uint32_t of = q == COST || q == LAST_COST ? NUMBER : q == TIME || q == OUTER_TIME ? (below(6) ? YES : NO) : VECTOR;
    if (below(25) == 0) of = (uint32_t)below(7);
    if (of == FAILURE && below(4)) of = VECTOR;
    const int quick = below(3) != 0;
    const uint32_t code = (uint32_t)next();
    const size_t vs = below(25) == 0 ? below(65) : wanted(q), ps = below(25) == 0 ? below(65) : set.n % 65, xp = below(25) == 0 ? below(40) : right;
    for (int i = 0; i < 2; i++) g[i] = sides[i]->answer(kind, quick, of, x, code, v, vs, plans[i], ps, xis[i], xp);
    goes = compare(g);
    same_numbers("the plan", plans[0], plans[1], 65);
    same_numbers("the penalty and the multipliers", xis[0], xis[1], 65);
    if (goes && (g[0].number < 6 || g[0].number > 8)) q = g[0].told;
    goes = goes && stands;
  }
}

int main(int words, char **word) {
  const size_t runs = words > 1 ? strtoul(word[1], NULL, 10) : 100000;
  state = words > 2 ? strtoull(word[2], NULL, 10) : 88172645463325252u;
  for (size_t i = 0; i < runs; i++) {
    kind = (int)(i % KINDS);
    play(i / KINDS % 3 ? 60 : 8);
  }
  printf("%zu runs, 0 differences; %zu questions with their points\n", runs, asked);
  for (int i = 0; i < KINDS; i++) printf("%s: %zu calls, ends %zu %zu %zu\n", kinds[i], calls[i], ended[i][0], ended[i][1], ended[i][2]);
  printf("numbers of the table:");
  for (size_t i = 0; i < 32; i++) {
    if (numbers[i]) printf(" %zu: %zu", i, numbers[i]);
  }
  puts("");
  return 0;
}
