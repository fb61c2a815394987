use std::marker::PhantomData;

/// The callbacks and sizes of a problem under the loop; stands in for a file that docs/src lacks.
pub struct AlmProblem<F1, F2, Gradient, Cost, SetU, SetC, SetY, T = f64> {
    pub(crate) constraints: SetU,
    pub(crate) alm_set_c: Option<SetC>,
    pub(crate) alm_set_y: Option<SetY>,
    pub(crate) parametric_cost: Cost,
    pub(crate) parametric_gradient: Gradient,
    pub(crate) mapping_f1: Option<F1>,
    pub(crate) mapping_f2: Option<F2>,
    pub(crate) n1: usize,
    pub(crate) n2: usize,
    marker: PhantomData<T>,
}

impl<F1, F2, Gradient, Cost, SetU, SetC, SetY, T>
    AlmProblem<F1, F2, Gradient, Cost, SetU, SetC, SetY, T>
{
    /// Puts the parts together.
    #[allow(clippy::too_many_arguments)]
    pub fn new(
        constraints: SetU,
        alm_set_c: Option<SetC>,
        alm_set_y: Option<SetY>,
        parametric_cost: Cost,
        parametric_gradient: Gradient,
        mapping_f1: Option<F1>,
        mapping_f2: Option<F2>,
        n1: usize,
        n2: usize,
    ) -> Self {
        AlmProblem {
            constraints,
            alm_set_c,
            alm_set_y,
            parametric_cost,
            parametric_gradient,
            mapping_f1,
            mapping_f2,
            n1,
            n2,
            marker: PhantomData,
        }
    }
}
