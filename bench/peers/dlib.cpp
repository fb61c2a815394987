// dlib's box-constrained L-BFGS. Its own loops are quicker on 24 numbers than calls of a BLAS.
#include <dlib/optimization.h>

#include "../../host/examples/kiln_model.h"
#include "peers.h"

namespace {
typedef dlib::matrix<double, KILN_PERIODS, 1> column;

// Stops where the projected gradient is small; it is worked out of the gradient that is there anyway.
class at_projected_gradient {
 public:
  explicit at_projected_gradient(double norm) : least(norm * norm), left(1000) {}
  template <typename T>
  bool should_continue_search(const T &u, const double, const T &g) {
    double sum = 0;
    for (long i = 0; i < KILN_PERIODS; i++) {
      const double p = u(i) - g(i), off = u(i) - (p < 0 ? 0 : p > 1 ? 1 : p);
      sum = sum + off * off;
    }
    return sum > least && left-- > 0;
  }

 private:
  double least;
  int left;
};
}  // namespace

extern "C" void dlib_plan(double *u, double norm, size_t memory, evaluations *e) {
  column at, lower, upper;
  for (long i = 0; i < KILN_PERIODS; i++) at(i) = u[i];
  lower = 0;
  upper = 1;
  const auto cost = [e](const column &x) {
    e->costs++;
    return kiln_cost(&x(0));
  };
  const auto gradient = [e](const column &x) {
    e->gradients++;
    column g;
    kiln_gradient(&x(0), &g(0));
    return g;
  };
  dlib::find_min_box_constrained(dlib::lbfgs_search_strategy(memory), at_projected_gradient(norm), cost, gradient, at, lower, upper);
  for (long i = 0; i < KILN_PERIODS; i++) u[i] = at(i);
}
