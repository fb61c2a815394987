/* The kiln's plan by other solvers: u holds the start and then the plan. Stop at a projected gradient of this norm or less, where the solver can. */
#ifndef PEERS_H
#define PEERS_H
#include <stddef.h>
#ifdef __cplusplus
extern "C" {
#endif

typedef struct {
  size_t costs, gradients;
} evaluations;

/* The norm of u - P(u - gradient): what all solvers are held to. */
double projected_gradient(const double *u);

void dlib_plan(double *u, double norm, size_t memory, evaluations *e);
/* By its tolerance on the cost, as it has no test of the projected gradient. */
void nlopt_lbfgs_plan(double *u, double tolerance, size_t memory, evaluations *e);
void nlopt_slsqp_plan(double *u, double tolerance, size_t memory, evaluations *e);

#ifdef __cplusplus
}
#endif
#endif
