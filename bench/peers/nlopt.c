/* NLopt's L-BFGS and SLSQP, each made once and used for many plans. */
#include <nlopt.h>

#include "../../host/examples/kiln_model.h"
#include "peers.h"

static double both(unsigned n, const double *u, double *g, void *data) {
  evaluations *e = *(evaluations **)data;
  (void)n;
  e->costs++;
  if (g) {
    e->gradients++;
    kiln_gradient(u, g);
  }
  return kiln_cost(u);
}

static void plan(nlopt_opt *made, nlopt_algorithm algorithm, double *u, double tolerance, size_t memory, evaluations *e) {
  static evaluations *counted;
  double cost;
  counted = e;
  if (!*made) {
    *made = nlopt_create(algorithm, KILN_PERIODS);
    nlopt_set_min_objective(*made, both, &counted);
    nlopt_set_lower_bounds1(*made, 0);
    nlopt_set_upper_bounds1(*made, 1);
    nlopt_set_maxeval(*made, 5000);
  }
  nlopt_set_vector_storage(*made, (unsigned)memory);
  nlopt_set_ftol_rel(*made, tolerance);
  nlopt_optimize(*made, u, &cost);
}

void nlopt_lbfgs_plan(double *u, double tolerance, size_t memory, evaluations *e) {
  static nlopt_opt made;
  plan(&made, NLOPT_LD_LBFGS, u, tolerance, memory, e);
}

void nlopt_slsqp_plan(double *u, double tolerance, size_t memory, evaluations *e) {
  static nlopt_opt made;
  plan(&made, NLOPT_LD_SLSQP, u, tolerance, memory, e);
}
