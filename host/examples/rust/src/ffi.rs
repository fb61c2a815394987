//! The part of `pozkerrin.h` that the wrapper calls. Only `inner.rs` and `sets.rs` use it.

/// `pkr_inner_end`.
#[repr(C)]
#[derive(Clone, Copy)]
pub struct InnerEnd {
    pub iterations: usize,
    pub norm_fpr: f64,
    pub cost_value: f64,
}

/// `pkr_inner_fields`.
#[repr(C)]
#[derive(Clone)]
pub struct InnerFields {
    pub phase: u32,
    pub outcome: u32,
    pub told: u32,
    pub status: u32,
    pub forget: u32,
    pub limited: u32,
    pub has_akkt: u32,
    pub n: usize,
    pub max_iter: usize,
    pub left: usize,
    pub iterations: usize,
    pub rounds: usize,
    pub tolerance: f64,
    pub akkt_tolerance: f64,
    pub cost_value: f64,
    pub lipschitz_constant: f64,
    pub gamma: f64,
    pub sigma: f64,
    pub norm_gamma_fpr: f64,
    pub best_norm_gamma_fpr: f64,
    pub tau: f64,
    pub rhs_ls: f64,
    pub norm_h: f64,
    pub end: InnerEnd,
}

/// `pkr_inner`.
#[repr(C)]
#[derive(Clone)]
pub struct Inner {
    pub inner: InnerFields,
    pub board: [f64; 576],
}

/// A struct of zeros: a run that has ended.
pub const OVER: Inner = Inner {
    inner: InnerFields {
        phase: 0,
        outcome: 0,
        told: 0,
        status: 0,
        forget: 0,
        limited: 0,
        has_akkt: 0,
        n: 0,
        max_iter: 0,
        left: 0,
        iterations: 0,
        rounds: 0,
        tolerance: 0.0,
        akkt_tolerance: 0.0,
        cost_value: 0.0,
        lipschitz_constant: 0.0,
        gamma: 0.0,
        sigma: 0.0,
        norm_gamma_fpr: 0.0,
        best_norm_gamma_fpr: 0.0,
        tau: 0.0,
        rhs_ls: 0.0,
        norm_h: 0.0,
        end: InnerEnd {
            iterations: 0,
            norm_fpr: 0.0,
            cost_value: 0.0,
        },
    },
    board: [0.0; 576],
};

/// `pkr_set`.
#[repr(C)]
#[derive(Debug, Clone, Copy)]
pub struct Set {
    pub kind: u32,
    pub stretch: usize,
    pub first: usize,
    pub second: usize,
}

extern "C" {
    pub fn pozkerrin_project(
        sets: *const Set,
        count: usize,
        numbers: *const f64,
        have: usize,
        v: *mut f64,
        vs: usize,
    ) -> u32;

    pub fn pozkerrin_inner_start(
        run: *mut Inner,
        n: usize,
        max_iter: usize,
        limited: u32,
        tolerance: f64,
        has_akkt: u32,
        akkt_tolerance: f64,
        at: *const f64,
        ats: usize,
    ) -> u32;

    pub fn pozkerrin_inner_answer(
        run: *mut Inner,
        kind: u32,
        x: f64,
        code: u32,
        v: *const f64,
        vs: usize,
        plan: *mut f64,
        plans: usize,
    ) -> u32;

    pub fn pozkerrin_inner_question(run: *const Inner) -> u32;

    pub fn pozkerrin_inner_place(run: *const Inner) -> u32;

    pub fn pozkerrin_inner_points(
        run: *const Inner,
        first: *mut f64,
        firsts: usize,
        second: *mut f64,
        seconds: usize,
    ) -> u32;
}
