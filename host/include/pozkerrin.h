/* Pozkerrin for C: the inner solve, the multiplier loop, psi and d_psi as runs that hand out a question and take an answer.
 *
 * What a user does. A run is a struct that the host keeps. A start puts its first question; then, question by question, the host looks at the
 * point, works out what is asked and answers, until the run asks no more:
 *
 *     pkr_inner run;
 *     uint32_t got = pkr_inner_start(&run, &settings, u, n);
 *     while (got == 0 && run.inner.outcome == PKR_ASKED) {
 *       const double *at = pkr_inner_point(&run);
 *       switch (run.inner.told) {
 *         case PKR_COST: got = pkr_inner_number(&run, cost(at), plan, n); break;
 *         case PKR_GRADIENT: gradient(at, v); got = pkr_inner_vector(&run, v, n, plan, n); break;
 *         case PKR_PROJECT: project(at, v); got = pkr_inner_vector(&run, v, n, plan, n); break;
 *         case PKR_TIME: got = pkr_inner_decision(&run, time_is_left(), plan, n); break;
 *         case PKR_DIRECTION: direction(at, pkr_inner_u(&run), v); got = pkr_inner_vector(&run, v, n, plan, n); break;
 *         case PKR_DIRECTION_FORGET: forget(); direction(at, pkr_inner_u(&run), v); got = pkr_inner_vector(&run, v, n, plan, n); break;
 *       }
 *     }
 *     if (got == 0) { run.inner.told is the end, run.inner.end has its numbers, and the plan is in plan }
 *
 * What a call returns: 0 where it is taken, and then the run asks on or has ended with a plan; 9 where the host has answered with a failure; else the
 * number of a refusal; all are listed below. A start that is refused, a failure, and a refusal by 10 to 18 leave a run that has ended. An answer refused
 * by 6 to 8 writes nothing, no byte of the run and no lent place: the question still stands.
 *
 * What stands in the run: outcome and told are what the last call that wrote has told. PKR_ASKED: told is the question. PKR_ENDED: the end. PKR_REFUSED:
 * the number. PKR_FAILED: the host's code. pkr_*_question and pkr_*_points read the question and its points at any time, of any struct.
 *
 * Units. Lengths count doubles, not bytes. Points, costs and gradients are in the units of the host's model. The tolerance is held against the norm of
 * u less its half step, in units of u; AKKT and epsilon tolerances are in units of the gradient, delta in those of F1 and F2. The engine has no clock.
 *
 * Duties of the caller. Each pointer is to as many places as its length says, to one place and never NULL where the length is 0. The lent places
 * overlap neither each other nor the run. While one call writes a run no other is in it; it may be copied as a struct, and the copy is a run of its own.
 *
 * Any struct is answered. A struct of zeros is a run that has ended: pkr_*_question gives PKR_NO_QUESTION, an answer gets 6. One that no start made is
 * answered as a run that has ended, where it has no such phase or size, or by the process that its numbers stand for. So is every number passed, NaN too.
 *
 * A call reads and writes the run and the lent places, and nothing else: no heap, no state besides, at most a few KB of stack. The functions pkr_* are
 * inline and take the structs apart. Link target/staticlib/libpozkerrin.a, which `bash host/archive.sh` makes. */
#ifndef POZKERRIN_H
#define POZKERRIN_H
#include <stddef.h>
#include <stdint.h>

enum { PKR_PLACES = 64, PKR_MAPPINGS = 32, PKR_INNER_LIMIT = 10000, PKR_OUTER_LIMIT = 1000 }; /* the largest n; n1 and n2; M; K */

/* Outcomes: what `told` is. */
enum { PKR_ASKED = 0, PKR_ENDED = 1, PKR_REFUSED = 2, PKR_FAILED = 3 };

/* Questions, with their points and what is wanted. xi is a second point in a loop only. */
enum {
  PKR_COST = 0,              /* u (n), xi: a number */
  PKR_GRADIENT = 1,          /* u (n), xi: a vector (n) */
  PKR_PROJECT = 2,           /* a point (n): a vector (n) */
  PKR_DIRECTION = 3,         /* the residual (n), u (n): a vector (n) */
  PKR_DIRECTION_FORGET = 4,  /* the same, all earlier pairs being forgotten first */
  PKR_TIME = 5,              /* nothing: yes (time is left) or no */
  PKR_OUTER_TIME = 6,        /* the same, before an outer iteration */
  PKR_PROJECT_Y = 7,         /* y (n1): a vector (n1) */
  PKR_F1 = 8,                /* u (n): a vector (n1) */
  PKR_PROJECT_C = 9,         /* a point (n1): a vector (n1) */
  PKR_F2 = 10,               /* u (n): a vector (n2) */
  PKR_LAST_COST = 11,        /* u (n), xi with penalty 0: a number */
  PKR_JF1T = 12,             /* u (n), a vector (n1): a vector (n) */
  PKR_JF2T = 13,             /* u (n), a vector (n2): a vector (n) */
  PKR_NO_QUESTION = 14       /* none: the run has ended */
};

/* Kinds of answers. */
enum { PKR_NUMBER = 0, PKR_VECTOR = 1, PKR_YES = 2, PKR_NO = 3, PKR_FAILURE = 4 };

/* Ends. */
enum { PKR_CONVERGED = 0, PKR_ITERATIONS = 1, PKR_OUT_OF_TIME = 2 };

/* What a call returns where it is not 0. 1 to 5 and 19 at a start (19 comes after 1 and before 2), 6 to 8 at an answer, 6 and 8 at points, 9 to 18
 * as ends, 20 and 21 at a projection on ready-made sets (the vector is unchanged). */
enum {
  PKR_BAD_N = 1,             /* n outside its sizes, or u of another length */
  PKR_BAD_MAPPINGS = 2,      /* n1 or n2 above 32, xi of another length, Y set with n1 = 0 */
  PKR_BAD_LIMIT = 3,         /* M or K outside */
  PKR_BAD_SETTING = 4,       /* a tolerance, factor or coefficient outside */
  PKR_BAD_XI = 5,            /* c not finite or not above 0, a y not finite */
  PKR_OVER = 6,              /* the run has ended */
  PKR_BAD_KIND = 7,          /* not the kind asked, or failure for TIME or DIRECTION */
  PKR_BAD_LENGTH = 8,        /* a lent slice not of the length asked */
  PKR_HOST_FAILED = 9,       /* the host has answered with a failure: its code is told */
  PKR_FIRST_NOT_FINITE = 10, /* first cost or gradient not finite */
  PKR_HALF_NOT_FINITE = 11,  /* half-step cost not finite */
  PKR_DOUBLED_NOT_FINITE = 12,   /* the same while doubling */
  PKR_ITERATE_NOT_FINITE = 13,   /* first iterate: cost or gradient not finite */
  PKR_CANDIDATE_NOT_FINITE = 14, /* candidate: cost or gradient not finite */
  PKR_FINAL_NOT_FINITE = 15,     /* final u not finite */
  PKR_BEST_NOT_FINITE = 16,      /* cost at the best half step not finite */
  PKR_NO_TIME = 17,              /* a no from the first TIME of a loop */
  PKR_INFEASIBILITY_NAN = 18,    /* the norm of y_plus - y or of F2 is NaN */
  PKR_BAD_U = 19,            /* u not finite; psi and d_psi take any u */
  PKR_BAD_SETS = 20,         /* over 8 sets, stretches that do not exactly fill the vector, bounds or a centre not as long as their stretch */
  PKR_BAD_BOUND = 21         /* a bound, centre or radius not finite, lower above upper, or radius below 0 */
};

/* ---- Runs: named numbers, and one board with all vectors. A board has 64 places for each vector, of which the first n (n1 of y, y_plus, F1, t) are the
 * vector's: place i of vector j is board[64 * j + i]. */

/* The vectors of an inner solve, and after them those of a loop. */
enum {
  PKR_V_U = 0,               /* u */
  PKR_V_U_PLUS = 1,          /* the candidate */
  PKR_V_GRADIENT = 2,        /* the gradient at u */
  PKR_V_PREVIOUS = 3,        /* the gradient before it */
  PKR_V_STEP = 4,            /* the gradient step */
  PKR_V_HALF = 5,            /* the half step */
  PKR_V_FPR = 6,             /* the residual, u less the half step */
  PKR_V_DIRECTION = 7,       /* the direction */
  PKR_V_BEST = 8,            /* the half step of the least norm: the plan */
  PKR_INNER_VECTORS = 9,
  PKR_V_Y = 9,               /* the multipliers */
  PKR_V_Y_PLUS = 10,         /* those after an outer iteration; before, F1 + y / c */
  PKR_V_F1 = 11,             /* F1 */
  PKR_LOOP_VECTORS = 12
};

/* Those of psi, and of d_psi. */
enum { PKR_PSI_U = 0, PKR_PSI_Y = 1, PKR_PSI_T = 2, PKR_PSI_WORK = 3, PKR_PSI_VECTORS = 4 };
enum { PKR_D_PSI_U = 0, PKR_D_PSI_Y = 1, PKR_D_PSI_GRADIENT = 2, PKR_D_PSI_T = 3, PKR_D_PSI_D = 4, PKR_D_PSI_WORK = 5, PKR_D_PSI_VECTORS = 6 };

/* Of the end of an inner solve: the steps after the first, the plan's norm, the cost at the plan. */
typedef struct {
  size_t iterations;
  double norm_fpr, cost_value;
} pkr_inner_end;

/* Of an inner solve. status is the end that stands for the present step, left the steps that may still begin, iterations those done, rounds the
 * doublings or candidates that may follow, norm_h the norm of the shift. */
typedef struct {
  uint32_t phase, outcome, told, status, forget, limited, has_akkt;
  size_t n, max_iter, left, iterations, rounds;
  double tolerance, akkt_tolerance, cost_value;
  double lipschitz_constant, gamma, sigma;
  double norm_gamma_fpr, best_norm_gamma_fpr, tau, rhs_ls;
  double norm_h;
  pkr_inner_end end;
} pkr_inner_fields;

typedef struct {
  pkr_inner_fields inner;
  double board[64 * PKR_INNER_VECTORS];
} pkr_inner;

/* Of the end of a loop: outer and inner iterations, the last solve's norm, the infeasibilities of y and of F2, the penalty, the cost. */
typedef struct {
  size_t outer_iterations, inner_iterations;
  double norm_fpr, delta_y_norm, f2_norm, penalty, cost;
} pkr_loop_end;

/* Of a loop. status is the end of the last solve or the one handed back, left the outer iterations that may still begin, outer and inner the iterations
 * done, found those of the last solve. c, the AKKT tolerance, the infeasibilities before and now, and the norm of the last solve come before the end. */
typedef struct {
  uint32_t phase, status, limited, has_set_y;
  size_t n, n1, n2, max_inner_iterations, max_outer_iterations, left, outer, inner, found;
  double tolerance, epsilon_tolerance, delta_tolerance, initial_inner_tolerance;
  double penalty_update_factor, epsilon_update_factor, sufficient_decrease_coeff;
  double penalty, akkt_tolerance, delta_y_norm, f2_norm, delta_y_norm_plus, f2_norm_plus, norm_fpr;
  pkr_loop_end end;
} pkr_loop_fields;

/* A loop, with the inner solve that it carries: outcome and told are those of inner. */
typedef struct {
  pkr_inner_fields inner;
  pkr_loop_fields alm;
  double board[64 * PKR_LOOP_VECTORS];
} pkr_loop;

/* psi: c is the penalty, value the number so far, answer at an end the number. */
typedef struct {
  uint32_t phase, outcome, told;
  size_t n, n1, n2;
  double c, value, answer;
  double board[64 * PKR_PSI_VECTORS];
} pkr_psi;

typedef struct {
  uint32_t phase, outcome, told;
  size_t n, n1, n2;
  double c;
  double board[64 * PKR_D_PSI_VECTORS];
} pkr_d_psi;

typedef struct {
  size_t n, max_iter; /* 1 to 64; M, 1 to 10,000 */
  uint32_t limited;   /* whether TIME is asked: 0 is no, any other number yes */
  double tolerance;
  uint32_t has_akkt;  /* whether an AKKT tolerance is set */
  double akkt_tolerance;
} pkr_inner_settings;

typedef struct {
  size_t n, n1, n2;   /* the places of u, of F1 and of F2 */
  uint32_t has_set_y; /* whether a set Y is given */
  size_t max_inner_iterations, max_outer_iterations; /* M and K */
  uint32_t limited;
  double tolerance, epsilon_tolerance, delta_tolerance, initial_inner_tolerance;
  double penalty_update_factor, epsilon_update_factor, sufficient_decrease_coeff;
} pkr_loop_settings;

/* A set for the next `stretch` places of a vector: a box or a ball. Its numbers lie in an array that is lent beside the sets, those of each set
 * behind those of the set before. A box's are its lower bounds, `first` of them, and then its upper ones, `second`; a ball's are its radius and
 * then its centre, `first` places, and `second` counts nothing. Any kind but PKR_BOX is a ball. */
enum { PKR_SETS = 8 }; /* the most sets of a table */
enum { PKR_BOX = 0, PKR_BALL = 1 };
typedef struct {
  uint32_t kind;
  size_t stretch, first, second;
} pkr_set;

/* ---- The exported calls. */
uint32_t pozkerrin_project(const pkr_set *sets, size_t count, const double *numbers, size_t have, double *v, size_t vs);

uint32_t pozkerrin_inner_start(pkr_inner *run, size_t n, size_t max_iter, uint32_t limited, double tolerance, uint32_t has_akkt,
    double akkt_tolerance, const double *at, size_t ats);
uint32_t pozkerrin_inner_answer(pkr_inner *run, uint32_t kind, double x, uint32_t code, const double *v, size_t vs, double *plan, size_t plans);
uint32_t pozkerrin_inner_number(pkr_inner *run, double x, double *plan, size_t plans);
uint32_t pozkerrin_inner_vector(pkr_inner *run, const double *v, size_t vs, double *plan, size_t plans);
uint32_t pozkerrin_inner_points(const pkr_inner *run, double *first, size_t firsts, double *second, size_t seconds);
uint32_t pozkerrin_inner_place(const pkr_inner *run);
uint32_t pozkerrin_inner_question(const pkr_inner *run);

uint32_t pozkerrin_loop_start(pkr_loop *run, const pkr_loop_settings *settings, const double *at, size_t ats, const double *xi, size_t xis);
uint32_t pozkerrin_loop_answer(pkr_loop *run, uint32_t kind, double x, uint32_t code, const double *v, size_t vs, double *plan, size_t plans,
    double *xi, size_t xis);
uint32_t pozkerrin_loop_number(pkr_loop *run, double x, double *plan, size_t plans, double *xi, size_t xis);
uint32_t pozkerrin_loop_vector(pkr_loop *run, const double *v, size_t vs, double *plan, size_t plans, double *xi, size_t xis);
uint32_t pozkerrin_loop_points(const pkr_loop *run, double *first, size_t firsts, double *second, size_t seconds);
uint32_t pozkerrin_loop_second(const pkr_loop *run, double *second, size_t seconds);
uint32_t pozkerrin_loop_place(const pkr_loop *run);
uint32_t pozkerrin_loop_question(const pkr_loop *run);

uint32_t pozkerrin_psi_start(pkr_psi *run, size_t n, size_t n1, size_t n2, const double *u, size_t us, const double *xi, size_t xis);
uint32_t pozkerrin_psi_answer(pkr_psi *run, uint32_t kind, double x, uint32_t code, const double *v, size_t vs);
uint32_t pozkerrin_psi_points(const pkr_psi *run, double *first, size_t firsts, double *second, size_t seconds);
uint32_t pozkerrin_psi_question(const pkr_psi *run);

uint32_t pozkerrin_d_psi_start(pkr_d_psi *run, size_t n, size_t n1, size_t n2, const double *u, size_t us, const double *xi, size_t xis);
uint32_t pozkerrin_d_psi_answer(pkr_d_psi *run, uint32_t kind, double x, uint32_t code, const double *v, size_t vs, double *result, size_t results);
uint32_t pozkerrin_d_psi_points(const pkr_d_psi *run, double *first, size_t firsts, double *second, size_t seconds);
uint32_t pozkerrin_d_psi_question(const pkr_d_psi *run);

/* ---- Ready-made sets, with which a host can answer PROJECT. */

/* A box and a ball with bounds or a centre as long as their stretch. */
static inline pkr_set pkr_box(size_t stretch) {
  const pkr_set s = {PKR_BOX, stretch, stretch, stretch};
  return s;
}

static inline pkr_set pkr_ball(size_t stretch) {
  const pkr_set s = {PKR_BALL, stretch, stretch, 0};
  return s;
}

/* Projects v, of vs places, on a table of sets, whose numbers are the first of `have`: 0, or 20 or 21. A box puts its bound where an entry lies
 * beyond it, and keeps every other entry, NaN too. A ball keeps its stretch unless that is further from the centre than the radius. */
static inline uint32_t pkr_project(const pkr_set *sets, size_t count, const double *numbers, size_t have, double *v, size_t vs) {
  return pozkerrin_project(sets, count, numbers, have, v, vs);
}

/* ---- The inner solve. */

/* Begins a run at u, of us places: COST is asked, or it is refused by 1, 19, 3 or 4. */
static inline uint32_t pkr_inner_start(pkr_inner *r, const pkr_inner_settings *s, const double *u, size_t us) {
  return pozkerrin_inner_start(r, s->n, s->max_iter, s->limited, s->tolerance, s->has_akkt, s->akkt_tolerance, u, us);
}

/* Takes an answer of any kind: x is a number, v a vector, code a failure's. The plan (n places) is written at an end alone. The calls below
 * take one kind; those for a number and a vector are quicker. */
static inline uint32_t pkr_inner_answer(pkr_inner *r, uint32_t kind, double x, uint32_t code, const double *v, size_t vs, double *plan,
    size_t plans) {
  return pozkerrin_inner_answer(r, kind, x, code, v, vs, plan, plans);
}

/* Takes a number. */
static inline uint32_t pkr_inner_number(pkr_inner *r, double x, double *plan, size_t plans) {
  return pozkerrin_inner_number(r, x, plan, plans);
}

/* Takes a vector. */
static inline uint32_t pkr_inner_vector(pkr_inner *r, const double *v, size_t vs, double *plan, size_t plans) {
  return pozkerrin_inner_vector(r, v, vs, plan, plans);
}

/* Takes a yes, or a no where it is 0. */
static inline uint32_t pkr_inner_decision(pkr_inner *r, int yes, double *plan, size_t plans) {
  const double none = 0;
  return pozkerrin_inner_answer(r, yes ? PKR_YES : PKR_NO, 0, 0, &none, 0, plan, plans);
}

/* Takes a failure of the host, with its code. */
static inline uint32_t pkr_inner_failure(pkr_inner *r, uint32_t code, double *plan, size_t plans) {
  const double none = 0;
  return pozkerrin_inner_answer(r, PKR_FAILURE, 0, code, &none, 0, plan, plans);
}

/* The question that stands, PKR_NO_QUESTION where the run has ended. */
static inline uint32_t pkr_inner_question(const pkr_inner *r) { return pozkerrin_inner_question(r); }

/* Copies the points of the question: 0, or 6 (ended) or 8 (a slice not as long as its point). */
static inline uint32_t pkr_inner_points(const pkr_inner *r, double *first, size_t firsts, double *second, size_t seconds) {
  return pozkerrin_inner_points(r, first, firsts, second, seconds);
}

/* The vector in whose first places the first point of a question lies, by the phase and without a call: what pozkerrin_inner_place gives, by a test. */
static inline size_t pkr_inner_place(uint32_t phase) {
  static const unsigned char places[] = {PKR_V_U, PKR_V_U, PKR_V_U, PKR_V_U, PKR_V_STEP, PKR_V_HALF, PKR_V_STEP, PKR_V_HALF, PKR_V_FPR,
      PKR_V_U, PKR_V_U, PKR_V_STEP, PKR_V_U_PLUS, PKR_V_U_PLUS, PKR_V_STEP, PKR_V_U, PKR_V_BEST};
  return phase < sizeof places ? places[phase] : (unsigned char)PKR_V_U;
}

/* The first point of the question where it lies in the run: its n numbers stand until the next call. Nothing is to be read for TIME or after
 * the end. */
static inline const double *pkr_inner_point(const pkr_inner *r) { return r->board + 64 * (size_t)pozkerrin_inner_place(r); }

/* The second point of DIRECTION where it lies. */
static inline const double *pkr_inner_u(const pkr_inner *r) { return r->board; }

/* The question, end, refusal or code that the last call told that wrote. */
static inline uint32_t pkr_inner_told(const pkr_inner *r) { return r->inner.told; }

/* Of an end: the steps after the first, the plan's norm, the cost at the plan. */
static inline size_t pkr_inner_iterations(const pkr_inner *r) { return r->inner.end.iterations; }
static inline double pkr_inner_norm(const pkr_inner *r) { return r->inner.end.norm_fpr; }
static inline double pkr_inner_cost(const pkr_inner *r) { return r->inner.end.cost_value; }

/* ---- The multiplier loop. */

/* The places of xi: none where n1 = n2 = 0, else the penalty's and n1. */
static inline size_t pkr_xi_places(size_t n1, size_t n2) { return n1 == 0 && n2 == 0 ? 0 : n1 + 1; }

/* Begins a run at u and xi: a first question is asked, or it is refused by 1, 19 or 2 to 5. */
static inline uint32_t pkr_loop_start(pkr_loop *r, const pkr_loop_settings *s, const double *u, size_t us, const double *xi, size_t xis) {
  /* s may lie in the run's own memory */
  const pkr_loop_settings settings = {s->n, s->n1, s->n2, s->has_set_y, s->max_inner_iterations, s->max_outer_iterations, s->limited, s->tolerance,
      s->epsilon_tolerance, s->delta_tolerance, s->initial_inner_tolerance, s->penalty_update_factor, s->epsilon_update_factor,
      s->sufficient_decrease_coeff};
  return pozkerrin_loop_start(r, &settings, u, us, xi, xis);
}

/* Takes an answer of any kind. The plan (n places) and xi are written at an end alone. */
static inline uint32_t pkr_loop_answer(pkr_loop *r, uint32_t kind, double x, uint32_t code, const double *v, size_t vs, double *plan,
    size_t plans, double *xi, size_t xis) {
  return pozkerrin_loop_answer(r, kind, x, code, v, vs, plan, plans, xi, xis);
}

/* Takes a number. */
static inline uint32_t pkr_loop_number(pkr_loop *r, double x, double *plan, size_t plans, double *xi, size_t xis) {
  return pozkerrin_loop_number(r, x, plan, plans, xi, xis);
}

/* Takes a vector. */
static inline uint32_t pkr_loop_vector(pkr_loop *r, const double *v, size_t vs, double *plan, size_t plans, double *xi, size_t xis) {
  return pozkerrin_loop_vector(r, v, vs, plan, plans, xi, xis);
}

/* Takes a yes, or a no where it is 0. */
static inline uint32_t pkr_loop_decision(pkr_loop *r, int yes, double *plan, size_t plans, double *xi, size_t xis) {
  const double none = 0;
  return pozkerrin_loop_answer(r, yes ? PKR_YES : PKR_NO, 0, 0, &none, 0, plan, plans, xi, xis);
}

/* Takes a failure of the host, with its code. */
static inline uint32_t pkr_loop_failure(pkr_loop *r, uint32_t code, double *plan, size_t plans, double *xi, size_t xis) {
  const double none = 0;
  return pozkerrin_loop_answer(r, PKR_FAILURE, 0, code, &none, 0, plan, plans, xi, xis);
}

/* The question that stands, PKR_NO_QUESTION where the run has ended. */
static inline uint32_t pkr_loop_question(const pkr_loop *r) { return pozkerrin_loop_question(r); }

/* Copies the points of the question: 0, or 6 (ended) or 8 (a slice not as long as its point). */
static inline uint32_t pkr_loop_points(const pkr_loop *r, double *first, size_t firsts, double *second, size_t seconds) {
  return pozkerrin_loop_points(r, first, firsts, second, seconds);
}

/* Copies the second point of the question alone, xi or u: 0, or 6 (ended) or 8 (not as long as that point). Within one inner solve, that is
 * until a question above PKR_TIME is asked, xi stays the same. */
static inline uint32_t pkr_loop_second(const pkr_loop *r, double *second, size_t seconds) { return pozkerrin_loop_second(r, second, seconds); }

/* The vector in whose first places the first point of a question lies, by the phases of the loop and of its inner solve and without a call: what
 * pozkerrin_loop_place gives, by a test. */
static inline size_t pkr_loop_place(uint32_t phase, uint32_t inner) {
  static const unsigned char places[] = {PKR_V_U, PKR_V_U, PKR_V_Y, PKR_V_U, PKR_V_BEST, PKR_V_Y_PLUS, PKR_V_BEST, PKR_V_U};
  return phase == 3 ? pkr_inner_place(inner) : phase < sizeof places ? places[phase] : (unsigned char)PKR_V_U;
}

/* The first point of the question where it lies in the run: its numbers stand until the next call. Nothing is to be read for TIME or after
 * the end. */
static inline const double *pkr_loop_point(const pkr_loop *r) { return r->board + 64 * (size_t)pozkerrin_loop_place(r); }

/* The second point of DIRECTION where it lies. */
static inline const double *pkr_loop_u(const pkr_loop *r) { return r->board; }

/* The question, end, refusal or code that the last call told that wrote. */
static inline uint32_t pkr_loop_told(const pkr_loop *r) { return r->inner.told; }

/* Of an end: outer and inner iterations, the last solve's norm, the infeasibilities of y and of F2, the penalty, the cost. */
static inline size_t pkr_loop_outer_iterations(const pkr_loop *r) { return r->alm.end.outer_iterations; }
static inline size_t pkr_loop_inner_iterations(const pkr_loop *r) { return r->alm.end.inner_iterations; }
static inline double pkr_loop_norm(const pkr_loop *r) { return r->alm.end.norm_fpr; }
static inline double pkr_loop_delta_y_norm(const pkr_loop *r) { return r->alm.end.delta_y_norm; }
static inline double pkr_loop_f2_norm(const pkr_loop *r) { return r->alm.end.f2_norm; }
static inline double pkr_loop_penalty(const pkr_loop *r) { return r->alm.end.penalty; }
static inline double pkr_loop_cost(const pkr_loop *r) { return r->alm.end.cost; }

/* ---- psi, the penalty function. */

/* Begins a run at u and xi: COST is asked, or it is refused by 1 or 2. */
static inline uint32_t pkr_psi_start(pkr_psi *r, size_t n, size_t n1, size_t n2, const double *u, size_t us, const double *xi, size_t xis) {
  return pozkerrin_psi_start(r, n, n1, n2, u, us, xi, xis);
}

/* Takes an answer: a number, a vector or a failure. */
static inline uint32_t pkr_psi_answer(pkr_psi *r, uint32_t kind, double x, uint32_t code, const double *v, size_t vs) {
  return pozkerrin_psi_answer(r, kind, x, code, v, vs);
}

/* The question that stands, PKR_NO_QUESTION where the run has ended. */
static inline uint32_t pkr_psi_question(const pkr_psi *r) { return pozkerrin_psi_question(r); }

/* Copies the point of the question; no question has a second one. */
static inline uint32_t pkr_psi_points(const pkr_psi *r, double *first, size_t firsts, double *second, size_t seconds) {
  return pozkerrin_psi_points(r, first, firsts, second, seconds);
}

/* The question, refusal or code that the last call told that wrote. */
static inline uint32_t pkr_psi_told(const pkr_psi *r) { return r->told; }

/* Of an end: psi. */
static inline double pkr_psi_value(const pkr_psi *r) { return r->answer; }

/* ---- d_psi, its gradient. */

/* Begins a run at u and xi: GRADIENT is asked, or it is refused by 1 or 2. */
static inline uint32_t pkr_d_psi_start(pkr_d_psi *r, size_t n, size_t n1, size_t n2, const double *u, size_t us, const double *xi, size_t xis) {
  return pozkerrin_d_psi_start(r, n, n1, n2, u, us, xi, xis);
}

/* Takes an answer: a vector or a failure. The result (n places) is written at an end alone. */
static inline uint32_t pkr_d_psi_answer(pkr_d_psi *r, uint32_t kind, double x, uint32_t code, const double *v, size_t vs, double *result,
    size_t results) {
  return pozkerrin_d_psi_answer(r, kind, x, code, v, vs, result, results);
}

/* The question that stands, PKR_NO_QUESTION where the run has ended. */
static inline uint32_t pkr_d_psi_question(const pkr_d_psi *r) { return pozkerrin_d_psi_question(r); }

/* Copies the points of the question: a product has a vector as its second. */
static inline uint32_t pkr_d_psi_points(const pkr_d_psi *r, double *first, size_t firsts, double *second, size_t seconds) {
  return pozkerrin_d_psi_points(r, first, firsts, second, seconds);
}

/* The question, refusal or code that the last call told that wrote. */
static inline uint32_t pkr_d_psi_told(const pkr_d_psi *r) { return r->told; }

#endif
