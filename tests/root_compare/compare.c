// Compares `numeric::sqrt` with the processor's own root, bit by bit, and times both.
// compare COUNT: numbers that are compared. Exit status 1 where any differ.
#include <emmintrin.h>
#include <stdint.h>
#include <stdio.h>
#include <stdlib.h>
#include <string.h>
#include <time.h>

double numeric_sqrt(double x);

static __attribute__((noinline)) double hardware_sqrt(double x) {
  __m128d v = _mm_set_sd(x);
  return _mm_cvtsd_f64(_mm_sqrt_sd(v, v));
}

static uint64_t bits_of(double x) {
  uint64_t b;
  memcpy(&b, &x, 8);
  return b;
}

static double of_bits(uint64_t b) {
  double x;
  memcpy(&x, &b, 8);
  return x;
}

static uint64_t state = 0x9E3779B97F4A7C15u;

// splitmix64: the same numbers in every run.
static uint64_t next(void) {
  uint64_t z = (state += 0x9E3779B97F4A7C15u);
  z = (z ^ (z >> 30)) * 0xBF58476D1CE4E5B9u;
  z = (z ^ (z >> 27)) * 0x94D049BB133111EBu;
  return z ^ (z >> 31);
}

static const uint64_t DIGITS = 0x000FFFFFFFFFFFFFu;

// A number with the sign clear whose exponent's field is e.
static double at_exponent(uint64_t e) { return of_bits(e << 52 | (next() & DIGITS)); }

// A float near the square of q / 2^shift, up to two patterns away; q has up to 54 digits, so that it is a float or midway between two.
static double near_square(uint64_t q, int shift) {
  unsigned __int128 s = (unsigned __int128)q * q;
  int drop = 0;
  while (s >> drop >> 53) drop++;
  double x = (double)(uint64_t)(s >> drop);
  // x is exact, and so is each doubling or halving: the exponent stays in the range of normal numbers
  for (int i = drop - 2 * shift; i > 0; i--) x *= 2;
  for (int i = drop - 2 * shift; i < 0; i++) x /= 2;
  return of_bits(bits_of(x) + next() % 5 - 2);
}

enum { KINDS = 6 };
static const char *kind_name[KINDS] = {"any pattern", "every exponent", "subnormal", "near the square of a float", "near the square of a midpoint", "near 1, 4 and the ends"};

static double input(uint64_t i) {
  switch (i % KINDS) {
    case 0: return of_bits(next());
    case 1: return at_exponent(i / KINDS % 2047);
    case 2: return of_bits(next() >> (12 + next() % 52));
    case 3: return near_square((1ull << 52) + (next() & DIGITS), (int)(next() % 900) - 400);
    case 4: return near_square((1ull << 53) + (next() & (2 * DIGITS)) + 1, (int)(next() % 900) - 400);
    default: {
      static const uint64_t around[5] = {0x3FF0000000000000u, 0x4010000000000000u, 0x7FF0000000000000u, 0x0010000000000000u, 0};
      return of_bits(around[next() % 5] + next() % 4096 - 2048);
    }
  }
}

static double seconds(void) {
  struct timespec t;
  clock_gettime(CLOCK_MONOTONIC, &t);
  return (double)t.tv_sec + (double)t.tv_nsec * 1e-9;
}

enum { ROOM = 4096 };

// ns a root, each of ROOM numbers by itself, best of several turns.
static double time_of(double (*root)(double), const double *xs) {
  double best = 1e9;
  for (int turn = 0; turn < 50; turn++) {
    double sum = 0, from = seconds();
    for (int i = 0; i < ROOM; i++) sum += root(xs[i]);
    double took = (seconds() - from) / ROOM * 1e9;
    if (took < best) best = took;
    if (sum == 12345.6789) puts("");
  }
  return best;
}

// ns a root where each waits for the one before it.
static double time_chained(double (*root)(double), const double *xs) {
  double best = 1e9;
  for (int turn = 0; turn < 50; turn++) {
    double last = 1, from = seconds();
    for (int i = 0; i < ROOM; i++) last = root(xs[i] + last * 1e-300);
    double took = (seconds() - from) / ROOM * 1e9;
    if (took < best) best = took;
    if (last == 12345.6789) puts("");
  }
  return best;
}

int main(int argc, char **argv) {
  uint64_t count = argc > 1 ? strtoull(argv[1], 0, 10) : 10000000, differences = 0, of_kind[KINDS] = {0};
  for (uint64_t i = 0; i < count; i++) {
    double x = input(i), ours = numeric_sqrt(x), theirs = hardware_sqrt(x);
    of_kind[i % KINDS]++;
    if (bits_of(ours) != bits_of(theirs) && !(ours != ours && theirs != theirs)) {
      if (differences++ < 10) printf("differs: %016llx: %016llx, hardware %016llx\n", (unsigned long long)bits_of(x), (unsigned long long)bits_of(ours), (unsigned long long)bits_of(theirs));
    }
  }
  for (int k = 0; k < KINDS; k++) printf("%10llu %s\n", (unsigned long long)of_kind[k], kind_name[k]);
  printf("%llu compared, %llu differences\n", (unsigned long long)count, (unsigned long long)differences);
  static double xs[ROOM], low[ROOM];
  for (int i = 0; i < ROOM; i++) xs[i] = at_exponent(1 + next() % 2046), low[i] = of_bits(1 + (next() & DIGITS) % DIGITS);
  printf("ns a root, normal numbers of every exponent: %.1f, hardware %.1f\n", time_of(numeric_sqrt, xs), time_of(hardware_sqrt, xs));
  printf("ns a root, each waiting for the one before: %.1f, hardware %.1f\n", time_chained(numeric_sqrt, xs), time_chained(hardware_sqrt, xs));
  printf("ns a root, subnormal numbers: %.1f, hardware %.1f\n", time_of(numeric_sqrt, low), time_of(hardware_sqrt, low));
  return differences != 0;
}
