/* kiln [MILLISECONDS]: plans 24 half hours of a kiln and prints the plan, the end and the counts; with a limit, TIME is asked too.
 * C99 and the engine's archive, nothing else. */
#include <inttypes.h>
#include <stdio.h>
#include <stdlib.h>
#include <string.h>
#include <time.h>

#include "kiln_model.h"
#include "pozkerrin.h"

enum { N = KILN_PERIODS };

static const char *const ENDS[] = {"converged", "out of iterations", "out of time"};

static uint64_t bits_of(double x) {
  uint64_t b;
  memcpy(&b, &x, sizeof b);
  return b;
}

/* The set of the plans, one box: each power lies between off and full. A box's lower bounds come before its upper ones. */
static const pkr_set SETS[] = {{PKR_BOX, N, N, N}};
static double bounds[2 * N];

static void fill_bounds(void) {
  for (size_t i = 0; i < N; i++) bounds[i] = 0, bounds[N + i] = 1;
}

/* Answers the questions until the run has ended, and gives what the last call gave; asked counts them by number. A table of sets that is refused
 * is answered as a failure, with its number. */
static uint32_t answer_all(pkr_inner *run, uint32_t got, clock_t until, double *plan, unsigned *asked) {
  static kiln_memory memory;
  double v[N];
  uint32_t refused;
  while (got == 0 && run->inner.outcome == PKR_ASKED) {
    const uint32_t question = run->inner.told;
    const double *at = pkr_inner_point(run);
    asked[question]++;
    switch (question) {
      case PKR_COST:
        got = pkr_inner_number(run, kiln_cost(at), plan, N);
        break;
      case PKR_GRADIENT:
        kiln_gradient(at, v);
        got = pkr_inner_vector(run, v, N, plan, N);
        break;
      case PKR_PROJECT:
        memcpy(v, at, sizeof v);
        refused = pkr_project(SETS, 1, bounds, 2 * N, v, N);
        got = refused ? pkr_inner_failure(run, refused, plan, N) : pkr_inner_vector(run, v, N, plan, N);
        break;
      case PKR_DIRECTION:
      case PKR_DIRECTION_FORGET:
        kiln_direction(&memory, question == PKR_DIRECTION_FORGET, at, pkr_inner_u(run), v);
        got = pkr_inner_vector(run, v, N, plan, N);
        break;
      default: /* PKR_TIME */
        got = pkr_inner_decision(run, clock() < until, plan, N);
        break;
    }
  }
  return got;
}

int main(int words, char **word) {
  const pkr_inner_settings settings = {
      .n = N, .max_iter = 200, .limited = words > 1, .tolerance = 1e-8, .has_akkt = 0, .akkt_tolerance = 0};
  const long milliseconds = words > 1 ? strtol(word[1], NULL, 10) : 0;
  const clock_t until = clock() + (clock_t)((double)milliseconds * CLOCKS_PER_SEC / 1000);
  static pkr_inner run;
  unsigned asked[PKR_TIME + 1] = {0};
  double plan[N], t[N];
  for (size_t i = 0; i < N; i++) plan[i] = 0.5;
  fill_bounds();

  const uint32_t got = answer_all(&run, pkr_inner_start(&run, &settings, plan, N), until, plan, asked);
  if (got != 0) {
    fprintf(stderr, "kiln: refused by %" PRIu32 "\n", got);
    if (got == PKR_HOST_FAILED) fprintf(stderr, "kiln: the sets are refused by %" PRIu32 "\n", run.inner.told);
    return 1;
  }

  kiln_temperatures(plan, t);
  puts("period     power   degrees     curve  power's bits");
  for (size_t i = 0; i < N; i++) {
    printf("%6zu  %8.6f  %8.2f  %8.2f  %016" PRIx64 "\n", i + 1, plan[i], t[i], KILN_CURVE[i], bits_of(plan[i]));
  }
  printf("end: %s, %zu steps after the first, norm %.3e, cost %.9f\n", ENDS[run.inner.told], run.inner.end.iterations,
      run.inner.end.norm_fpr, run.inner.end.cost_value);
  printf("asked: %u cost, %u gradient, %u project, %u direction, %u time\n", asked[PKR_COST], asked[PKR_GRADIENT], asked[PKR_PROJECT],
      asked[PKR_DIRECTION] + asked[PKR_DIRECTION_FORGET], asked[PKR_TIME]);
  return 0;
}
