//! The ready-made sets through the wrapper.
#![deny(warnings)]

use pozkerrin::Sets;

fn refusal(sets: &Sets, v: &mut [f64]) -> u32 {
    match sets.project(v) {
        Ok(()) => 0,
        Err(refusal) => refusal.number(),
    }
}

#[test]
fn each_stretch_on_its_own_set() {
    let sets = Sets::new()
        .with_box(2, &[0.0, -1.0], &[1.0, 1.0])
        .with_ball(2, &[1.0, 1.0], 5.0)
        .with_box(1, &[0.0], &[0.0]);
    let mut v = [2.0, f64::NAN, 7.0, 9.0, -0.0];
    assert_eq!(sets.project(&mut v), Ok(()));
    assert_eq!((v[0], v[2], v[3]), (1.0, 4.0, 5.0));
    assert!(v[1].is_nan() && v[4].is_sign_negative());
}

#[test]
fn refused_tables_leave_the_vector() {
    let wrong = f64::INFINITY;
    let one = |stretch, lower: &[f64], upper: &[f64]| Sets::new().with_box(stretch, lower, upper);
    for (sets, number) in [
        (one(2, &[0.0; 2], &[1.0; 3]), 20),
        (one(3, &[0.0; 3], &[1.0; 3]), 20),
        (
            one(usize::MAX, &[0.0; 2], &[1.0; 2]).with_box(3, &[0.0; 3], &[1.0; 3]),
            20,
        ),
        (one(2, &[wrong; 2], &[1.0; 2]).with_ball(1, &[], 1.0), 20),
        (one(2, &[0.0; 2], &[wrong; 2]), 21),
        (one(2, &[1.0; 2], &[0.5; 2]), 21),
        (Sets::new().with_ball(2, &[0.0; 2], -1.0), 21),
        (Sets::new().with_ball(2, &[0.0; 2], f64::NAN), 21),
    ] {
        let mut v = [3.0, -3.0];
        assert_eq!(refusal(&sets, &mut v), number);
        assert_eq!(v, [3.0, -3.0]);
    }
}

#[test]
fn at_most_eight_sets() {
    let mut sets = Sets::new();
    for _ in 0..8 {
        sets = sets.with_box(0, &[], &[]);
    }
    assert_eq!(refusal(&sets, &mut []), 0);
    assert_eq!(refusal(&sets.with_box(0, &[], &[]), &mut []), 20);
    assert_eq!(refusal(&Sets::new(), &mut []), 0);
    assert_eq!(refusal(&Sets::new(), &mut [0.0]), 20);
}
