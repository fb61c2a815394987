//! The plan of `kiln.c`, through the wrapper: it prints the same lines.
#![deny(warnings)]

#[path = "../kiln_model.rs"]
mod kiln_model;

use kiln_model::{cost, gradient, temperatures, Memory, CURVE, PERIODS};
use pozkerrin::{Answer, End, Inner, Outcome, Question, Refusal, Sets, Settings, Status};
use std::process::ExitCode;

/// How often each kind was asked: cost, gradient, project, direction, time.
type Asked = [u32; 5];

fn solve(plan: &mut [f64; PERIODS], asked: &mut Asked) -> Result<Status, Refusal> {
    let (mut run, question) = Inner::start(&Settings::new(PERIODS, 200, 1e-8), plan)?;
    let (mut at, mut u) = ([0.0; PERIODS], [0.0; PERIODS]);
    let mut memory = Memory::default();
    let powers = Sets::new().with_box(PERIODS, &[0.0; PERIODS], &[1.0; PERIODS]);
    let mut outcome = Outcome::Asked(question);
    loop {
        outcome = match outcome {
            Outcome::Asked(Question::Cost) => {
                asked[0] += 1;
                run.points(&mut at, &mut [])?;
                run.answer(Answer::Number(cost(&at)), plan)
            }
            Outcome::Asked(Question::Gradient) => {
                asked[1] += 1;
                run.points(&mut at, &mut [])?;
                run.answer(Answer::Vector(&gradient(&at)), plan)
            }
            Outcome::Asked(Question::Project) => {
                asked[2] += 1;
                run.points(&mut at, &mut [])?;
                powers.project(&mut at)?;
                run.answer(Answer::Vector(&at), plan)
            }
            Outcome::Asked(Question::Direction { forget }) => {
                asked[3] += 1;
                run.points(&mut at, &mut u)?;
                let direction = memory.direction(forget, &at, &u);
                run.answer(Answer::Vector(&direction), plan)
            }
            Outcome::Asked(Question::Time) => {
                asked[4] += 1;
                run.answer(Answer::Yes, plan)
            }
            Outcome::Ended(status) => return Ok(status),
            Outcome::Refused(refusal) => return Err(refusal),
            Outcome::Failed(code) => unreachable!("no failure is answered: {code}"),
        };
    }
}

fn main() -> ExitCode {
    let mut plan = [0.5; PERIODS];
    let mut asked = Asked::default();
    let status = match solve(&mut plan, &mut asked) {
        Ok(status) => status,
        Err(refusal) => {
            eprintln!("kiln: refused by {}", refusal.number());
            return ExitCode::FAILURE;
        }
    };
    let t = temperatures(&plan);
    println!("period     power   degrees     curve  power's bits");
    for i in 0..PERIODS {
        let (u, bits) = (plan[i], plan[i].to_bits());
        println!(
            "{:6}  {u:8.6}  {:8.2}  {:8.2}  {bits:016x}",
            i + 1,
            t[i],
            CURVE[i]
        );
    }
    let end = match status.end {
        End::Converged => "converged",
        End::Iterations => "out of iterations",
        End::OutOfTime => "out of time",
    };
    println!(
        "end: {end}, {} steps after the first, norm {}, cost {:.9}",
        status.iterations,
        scientific(status.norm),
        status.cost
    );
    let [costs, gradients, projects, directions, times] = asked;
    println!("asked: {costs} cost, {gradients} gradient, {projects} project, {directions} direction, {times} time");
    ExitCode::SUCCESS
}

/// As C's %.3e prints it: an exponent of two digits with its sign.
fn scientific(x: f64) -> String {
    let text = format!("{x:.3e}");
    let (digits, exponent) = text.split_once('e').expect("it has an exponent");
    let exponent: i32 = exponent.parse().expect("a whole number");
    let sign = if exponent < 0 { '-' } else { '+' };
    format!("{digits}e{sign}{:02}", exponent.abs())
}
