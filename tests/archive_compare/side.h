/* What compare.c sees of an archive: one run of each kind with all its numbers and vectors, whatever structs they lie in. */
#ifndef SIDE_H
#define SIDE_H
#include <stddef.h>
#include <stdint.h>

enum { INNER, LOOP, PSI, D_PSI, KINDS };
enum { WORDS = 8, COUNTS = 20, NUMBERS = 32, ENDS = 7, PLACES = 768 };

typedef struct {
  size_t n, n1, n2, max_inner, max_outer;
  uint32_t limited, has_akkt, has_set_y;
  double tolerance, akkt_tolerance, epsilon, delta, initial, penalty_factor, epsilon_factor, coefficient;
} given;

/* The table's number, and what the call has told; after a refusal by 6 to 8 the number alone counts. */
typedef struct {
  uint32_t number, outcome, told;
} gave;

/* All of a run: phases, flags and ends that stand; counts; numbers; what an end has handed back; the vectors, 64 places each. */
typedef struct {
  uint32_t words[WORDS];
  size_t counts[COUNTS], end_counts[2];
  double numbers[NUMBERS], ends[ENDS], board[PLACES];
} shown;

typedef struct {
  void (*fill)(int kind, const double *board); /* zeros, and these places */
  gave (*start)(int kind, const given *s, const double *u, size_t us, const double *xi, size_t xis);
  /* quick: by the call for a number or a vector alone, where there is one */
  gave (*answer)(int kind, int quick, uint32_t of, double x, uint32_t code, const double *v, size_t vs, double *plan, size_t plans, double *xi, size_t xis);
  uint32_t (*points)(int kind, double *first, size_t firsts, double *second, size_t seconds);
  const double *(*point)(int kind); /* where the first point lies, of an inner solve and of a loop */
  void (*show)(int kind, shown *s);
} side;

/* compare.c links two: the second is library_side of the older archive, renamed. */
extern const side library_side, old_side;
#endif
