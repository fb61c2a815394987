/* stack [RUNS]: the most stack that each call takes, from the call on. Each call is made on a painted stack of its own, and what is no longer
 * paint was used. The answers are model answers and wild ones, so that every phase, end and refusal comes up. */
#define _GNU_SOURCE
#include "bench.h"
#include "pozkerrin.h"

#include <stdio.h>
#include <stdlib.h>
#include <string.h>
#include <ucontext.h>

enum { SIZE = 1 << 18, PAINT = 0xA5, CALLS = 17 };

static _Alignas(64) unsigned char stack[SIZE];
static ucontext_t here, there;
static void (*work)(void);
static volatile uintptr_t top; /* where the stack stands when a call is made */

static void __attribute__((noinline)) there_main(void) {
  volatile char mark;
  top = (uintptr_t)&mark;
  work();
}

static size_t lowest = SIZE; /* below this all is paint */

/* Bytes that the work took below the frame that made it. */
static size_t used(void (*what)(void)) {
  memset(stack + lowest, PAINT, SIZE - lowest);
  getcontext(&there);
  there.uc_stack.ss_sp = stack;
  there.uc_stack.ss_size = SIZE;
  there.uc_link = &here;
  work = what;
  makecontext(&there, there_main, 0);
  swapcontext(&here, &there);
  lowest = 0;
  while (lowest < SIZE && stack[lowest] == PAINT) lowest++;
  if (lowest == 0) fputs("stack: more than there is\n", stderr), exit(1);
  return top - (uintptr_t)(stack + lowest);
}

static uint64_t seed = 1;
static uint64_t next(void) {
  uint64_t z = (seed += 0x9E3779B97F4A7C15u);
  z = (z ^ (z >> 30)) * 0xBF58476D1CE4E5B9u;
  z = (z ^ (z >> 27)) * 0x94D049BB133111EBu;
  return z ^ (z >> 31);
}
static double any(void) { return next() % 400 == 0 ? 1e308 * 10 * (double)(next() % 3) : (double)(int64_t)next() / 9e18; }

/* What a call is given and gives. */
static size_t n, n1, n2, xis, first_places, second_places, wanted;
static double u[64], v[64], xi[33], lent_u[64], lent_xi[33], first[64], second[64], number;
static uint32_t kind, got;
static pkr_inner inner;
static pkr_loop loop;
static pkr_psi psi;
static pkr_d_psi d_psi;
static pkr_inner_settings inner_settings;
static pkr_loop_settings loop_settings;

static void nothing(void) {}
static void inner_start(void) { got = pkr_inner_start(&inner, &inner_settings, u, n); }
static void inner_answer(void) { got = pkr_inner_answer(&inner, kind, number, 5, v, wanted, lent_u, n); }
static void inner_number(void) { got = pkr_inner_number(&inner, number, lent_u, n); }
static void inner_vector(void) { got = pkr_inner_vector(&inner, v, wanted, lent_u, n); }
static void inner_points(void) { got = pkr_inner_points(&inner, first, first_places, second, second_places); }
static void loop_start(void) { got = pkr_loop_start(&loop, &loop_settings, u, n, xi, xis); }
static void loop_answer(void) { got = pkr_loop_answer(&loop, kind, number, 5, v, wanted, lent_u, n, lent_xi, xis); }
static void loop_number(void) { got = pkr_loop_number(&loop, number, lent_u, n, lent_xi, xis); }
static void loop_vector(void) { got = pkr_loop_vector(&loop, v, wanted, lent_u, n, lent_xi, xis); }
static void loop_points(void) { got = pkr_loop_points(&loop, first, first_places, second, second_places); }
static void psi_start(void) { got = pkr_psi_start(&psi, n, n1, n2, u, n, xi, xis); }
static void psi_answer(void) { got = pkr_psi_answer(&psi, kind, number, 5, v, wanted); }
static void psi_points(void) { got = pkr_psi_points(&psi, first, first_places, second, second_places); }
static void d_psi_start(void) { got = pkr_d_psi_start(&d_psi, n, n1, n2, u, n, xi, xis); }
static void d_psi_answer(void) { got = pkr_d_psi_answer(&d_psi, kind, number, 5, v, wanted, lent_u, n); }
static void d_psi_points(void) { got = pkr_d_psi_points(&d_psi, first, first_places, second, second_places); }

static const struct {
  const char *name;
  void (*call)(void);
} calls[CALLS] = {{"nothing", nothing}, {"pkr_inner_start", inner_start}, {"pkr_inner_points", inner_points}, {"pkr_inner_answer", inner_answer},
    {"pkr_loop_start", loop_start}, {"pkr_loop_points", loop_points}, {"pkr_loop_answer", loop_answer}, {"pkr_psi_start", psi_start},
    {"pkr_psi_points", psi_points}, {"pkr_psi_answer", psi_answer}, {"pkr_d_psi_start", d_psi_start}, {"pkr_d_psi_points", d_psi_points},
    {"pkr_d_psi_answer", d_psi_answer}, {"pkr_inner_number", inner_number}, {"pkr_inner_vector", inner_vector},
    {"pkr_loop_number", loop_number}, {"pkr_loop_vector", loop_vector}};
static size_t most[CALLS];

static void make(size_t which) {
  const size_t bytes = used(calls[which].call);
  if (bytes > most[which]) most[which] = bytes;
}

/* The call that takes the answer: that for any kind, or in every other turn that for its kind, where there is one. */
static size_t taker(size_t start) {
  const size_t quick = start == 1 ? 13 : start == 4 ? 15 : 0;
  return quick && kind <= PKR_VECTOR && next() % 2 ? quick + kind : start + 2;
}

/* The kind and the places of what the question wants; now and then something else. */
static void choose(uint32_t question, int in_loop, int d) {
  const int xi_too = in_loop && (question == PKR_COST || question == PKR_GRADIENT || question == PKR_LAST_COST);
  first_places = question == PKR_TIME || question == PKR_OUTER_TIME ? 0 : question == PKR_PROJECT_Y || question == PKR_PROJECT_C ? n1 : n;
  second_places = xi_too ? xis : question == PKR_DIRECTION || question == PKR_DIRECTION_FORGET ? n
      : d && question == PKR_JF1T                                                            ? n1
      : d && question == PKR_JF2T                                                            ? n2
                                                                                             : 0;
  wanted = question == PKR_PROJECT_Y || question == PKR_F1 || question == PKR_PROJECT_C ? n1 : question == PKR_F2 ? n2 : n;
  kind = question == PKR_COST || question == PKR_LAST_COST ? PKR_NUMBER
      : question == PKR_TIME || question == PKR_OUTER_TIME ? (next() % 50 ? PKR_YES : PKR_NO)
                                                           : PKR_VECTOR;
  if (next() % 500 == 0) kind = (uint32_t)(next() % 7);
  if (next() % 500 == 0) wanted++;
}

/* Answers: those of the model at the points, or wild ones. */
static void answer(uint32_t question, int wild) {
  if (!wild && question <= PKR_DIRECTION_FORGET) {
    if (question == PKR_COST) number = quadratic.cost(first, n);
    if (question == PKR_GRADIENT) quadratic.gradient(first, v, n);
    if (question == PKR_PROJECT) quadratic.project(first, v, n);
    if (question >= PKR_DIRECTION) memcpy(v, first, n * sizeof *v);
    return;
  }
  number = any();
  for (size_t i = 0; i < 64; i++) v[i] = any();
}

static void play(int runs, size_t start, uint32_t (*asked)(void), int in_loop, int d) {
  for (int i = 0; i < runs; i++) {
    const int wild = i % 2;
    n = wild ? 1 + next() % 64 : 4 * (1 + next() % 16);
    n1 = n2 = 0;
    if (in_loop || d) n1 = next() % 33, n2 = next() % 33;
    xis = pkr_xi_places(n1, n2);
    for (size_t j = 0; j < 64; j++) u[j] = any();
    for (size_t j = 0; j < 33; j++) xi[j] = (double)(1 + next() % 9);
    inner_settings = (pkr_inner_settings){n, 1 + next() % 60, next() % 2, 1e-6, next() % 2, 1e-6};
    loop_settings = (pkr_loop_settings){n, n1, n2, n1 > 0 && next() % 2, 1 + next() % 30, 1 + next() % 6, next() % 2, 1e-6, 1e-6, 1e-6, 1e-2, 5,
        0.1, 0.1};
    if (next() % 50 == 0) inner_settings.tolerance = loop_settings.tolerance = 0;
    make(start);
    for (int turn = 0; turn < 20000 && (asked() != PKR_NO_QUESTION || next() % 3); turn++) {
      const uint32_t question = asked();
      choose(question, in_loop, d);
      make(start + 1);
      answer(question, wild);
      make(taker(start));
    }
  }
}

static uint32_t inner_question(void) { return pkr_inner_question(&inner); }
static uint32_t loop_question(void) { return pkr_loop_question(&loop); }
static uint32_t psi_question(void) { return pkr_psi_question(&psi); }
static uint32_t d_psi_question(void) { return pkr_d_psi_question(&d_psi); }

int main(int words, char **word) {
  const int runs = words > 1 ? atoi(word[1]) : 400;
  quadratic_task(64); /* sets the model's numbers */
  memset(stack, PAINT, SIZE);
  for (int i = 0; i < 100; i++) make(0);
  play(runs, 1, inner_question, 0, 0);
  play(runs / 4, 4, loop_question, 1, 0);
  play(runs, 7, psi_question, 0, 1);
  play(runs, 10, d_psi_question, 0, 1);
  puts("| call | bytes of stack, most seen |");
  puts("|---|---|");
  for (size_t i = 1; i < CALLS; i++) printf("| `%s` | %zu |\n", calls[i].name, most[i] - most[0]);
  printf("\nBytes of a run: `pkr_inner` %zu, `pkr_loop` %zu, `pkr_psi` %zu, `pkr_d_psi` %zu.\n", sizeof(pkr_inner), sizeof(pkr_loop), sizeof(pkr_psi),
      sizeof(pkr_d_psi));
  return 0;
}
