//! What a C host could get wrong, tried through the wrapper.
#![deny(warnings)]

use pozkerrin::{Answer, End, Inner, Outcome, Question, Refusal, Settings};

fn settings() -> Settings {
    Settings::new(3, 20, 1e-6)
}

fn refused(outcome: Outcome) -> u32 {
    match outcome {
        Outcome::Refused(refusal) => refusal.number(),
        other => panic!("not refused: {other:?}"),
    }
}

fn started() -> Inner {
    Inner::start(&settings(), &[1.0, 2.0, 3.0]).unwrap().0
}

fn start_refusal(settings: Settings, u: &[f64]) -> u32 {
    match Inner::start(&settings, u) {
        Ok(_) => panic!("not refused"),
        Err(refusal) => refusal.number(),
    }
}

#[test]
fn a_start_of_another_length() {
    for u in [&[][..], &[0.0; 2], &[0.0; 4], &[0.0; 1000]] {
        assert_eq!(start_refusal(settings(), u), 1);
    }
    assert_eq!(start_refusal(Settings { n: 0, ..settings() }, &[]), 1);
    let big = Settings {
        n: 65,
        ..settings()
    };
    assert_eq!(start_refusal(big, &[0.0; 65]), 1);
    let whole = Settings {
        n: usize::MAX,
        ..settings()
    };
    assert_eq!(start_refusal(whole, &[0.0; 3]), 1);
}

#[test]
fn a_start_that_is_not_finite() {
    for x in [f64::NAN, f64::INFINITY, f64::NEG_INFINITY] {
        for i in 0..3 {
            let mut u = [f64::MAX; 3];
            u[i] = x;
            assert_eq!(start_refusal(settings(), &u), 19);
            let none = Settings {
                max_iter: 0,
                ..settings()
            };
            assert_eq!(start_refusal(none, &u), 19);
        }
        assert_eq!(start_refusal(settings(), &[x; 4]), 1);
    }
}

#[test]
fn settings_outside() {
    let u = [0.0; 3];
    for max_iter in [0, 10_001, usize::MAX] {
        assert_eq!(
            start_refusal(
                Settings {
                    max_iter,
                    ..settings()
                },
                &u
            ),
            3
        );
    }
    for tolerance in [0.0, -1.0, f64::NAN, f64::INFINITY] {
        assert_eq!(
            start_refusal(
                Settings {
                    tolerance,
                    ..settings()
                },
                &u
            ),
            4
        );
        let akkt_tolerance = Some(tolerance);
        assert_eq!(
            start_refusal(
                Settings {
                    akkt_tolerance,
                    ..settings()
                },
                &u
            ),
            4
        );
    }
}

#[test]
fn points_of_another_length_are_not_written() {
    let run = started();
    for (first, second) in [(0, 0), (2, 0), (4, 0), (64, 0), (3, 1), (3, 3)] {
        let (mut a, mut b) = (vec![9.0; first], vec![9.0; second]);
        assert_eq!(run.points(&mut a, &mut b), Err(Refusal::from_number(8)));
        assert!(a.iter().chain(&b).all(|&x| x == 9.0));
    }
    let mut a = [0.0; 3];
    run.points(&mut a, &mut []).unwrap();
    assert_eq!(a, [1.0, 2.0, 3.0]);
}

#[test]
fn answers_of_another_kind_or_length_leave_the_run() {
    let mut run = started();
    let mut plan = [9.0; 3];
    for answer in [Answer::Vector(&[0.0; 3]), Answer::Yes, Answer::No] {
        assert_eq!(refused(run.answer(answer, &mut plan)), 7);
        assert_eq!(run.question(), Some(Question::Cost));
    }
    for places in [0, 2, 4, 64, 100] {
        let mut other = vec![9.0; places];
        assert_eq!(refused(run.answer(Answer::Number(1.0), &mut other)), 8);
        assert!(other.iter().all(|&x| x == 9.0));
    }
    let outcome = run.answer(Answer::Number(1.0), &mut plan);
    assert_eq!(outcome, Outcome::Asked(Question::Gradient));
    for places in [0, 2, 4, 65, 1000] {
        let v = vec![1.0; places];
        assert_eq!(refused(run.answer(Answer::Vector(&v), &mut plan)), 8);
        assert_eq!(run.question(), Some(Question::Gradient));
    }
    let outcome = run.answer(Answer::Vector(&[1.0; 3]), &mut plan);
    assert_eq!(outcome, Outcome::Asked(Question::Gradient));
    assert_eq!(plan, [9.0; 3]);
}

#[test]
fn a_failure_comes_back_and_ends_the_run() {
    let mut run = started();
    let mut plan = [9.0; 3];
    assert_eq!(
        run.answer(Answer::Failure(77), &mut plan),
        Outcome::Failed(77)
    );
    assert_eq!(run.question(), None);
    assert_eq!(refused(run.answer(Answer::Number(1.0), &mut plan)), 6);
    assert_eq!(
        run.points(&mut [0.0; 3], &mut []),
        Err(Refusal::from_number(6))
    );
    assert_eq!(plan, [9.0; 3]);
}

#[test]
fn numbers_that_are_none_end_the_run() {
    let mut run = started();
    let mut plan = [9.0; 3];
    run.answer(Answer::Number(f64::NAN), &mut plan);
    run.answer(Answer::Vector(&[1.0; 3]), &mut plan);
    let outcome = run.answer(Answer::Vector(&[1.0; 3]), &mut plan);
    assert_eq!(refused(outcome), 10);
    assert_eq!(plan, [9.0; 3]);
}

/// The copy of a run is a run of its own, and both come to the same plan.
#[test]
fn a_solve_and_its_copy() {
    let mut run = started();
    let (mut plan, mut copied) = ([9.0; 3], [9.0; 3]);
    assert_eq!(solve(&mut run.clone(), &mut copied), End::Converged);
    assert!(copied.iter().all(|x| x.abs() < 1e-6));
    assert_eq!(run.points(&mut plan, &mut []), Ok(()));
    assert_eq!(plan, [1.0, 2.0, 3.0]);
    assert_eq!(solve(&mut run, &mut plan), End::Converged);
    assert_eq!(plan, copied);
    assert_eq!(refused(run.answer(Answer::No, &mut plan)), 6);
}

/// Half the sum of squares over u ≥ 0, with the plain residual as direction.
fn solve(run: &mut Inner, plan: &mut [f64; 3]) -> End {
    let (mut at, mut u) = ([0.0; 3], [0.0; 3]);
    let mut outcome = Outcome::Asked(Question::Cost);
    loop {
        outcome = match outcome {
            Outcome::Asked(Question::Cost) => {
                run.points(&mut at, &mut []).unwrap();
                let sum: f64 = at.iter().map(|x| x * x).sum();
                run.answer(Answer::Number(sum / 2.0), plan)
            }
            Outcome::Asked(Question::Direction { .. }) => {
                run.points(&mut at, &mut u).unwrap();
                run.answer(Answer::Vector(&at), plan)
            }
            Outcome::Asked(question) => {
                run.points(&mut at, &mut []).unwrap();
                let projected = at.map(|x| if x > 0.0 { x } else { 0.0 });
                let gradient = question == Question::Gradient;
                run.answer(
                    Answer::Vector(if gradient { &at } else { &projected }),
                    plan,
                )
            }
            Outcome::Ended(status) => return status.end,
            other => panic!("{other:?}"),
        };
    }
}

/// At every question the point read where it lies is the one that is copied.
#[test]
fn the_point_where_it_lies() {
    let (mut run, question) = Inner::start(&settings(), &[1.0, 2.0, 3.0]).unwrap();
    let (mut plan, mut asked) = ([0.0; 3], 0);
    let mut outcome = Outcome::Asked(question);
    while let Outcome::Asked(question) = outcome {
        let (mut first, mut second) = ([f64::NAN; 3], [f64::NAN; 3]);
        let seconds = match question {
            Question::Direction { .. } => 3,
            _ => 0,
        };
        run.points(&mut first, &mut second[..seconds]).unwrap();
        assert_eq!(run.point(), &first);
        asked += 1;
        outcome = match question {
            Question::Cost => {
                let c: f64 = first
                    .iter()
                    .zip([1.0, 4.0, 9.0])
                    .map(|(x, a)| a * x * x)
                    .sum();
                run.answer(Answer::Number(c), &mut plan)
            }
            Question::Gradient => {
                let g = [2.0 * first[0], 8.0 * first[1], 18.0 * first[2]];
                run.answer(Answer::Vector(&g), &mut plan)
            }
            Question::Project => {
                let p = first.map(|x| x.clamp(0.25, 4.0));
                run.answer(Answer::Vector(&p), &mut plan)
            }
            Question::Direction { .. } => run.answer(Answer::Vector(&first), &mut plan),
            Question::Time => run.answer(Answer::Yes, &mut plan),
        };
    }
    assert!(matches!(outcome, Outcome::Ended(_)), "{outcome:?}");
    assert!(asked > 20, "only {asked} questions");
}
