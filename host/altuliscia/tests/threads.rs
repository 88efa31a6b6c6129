//! Calls from eight threads at once answer what they answer alone, each on a stack of what the header names and a little for Rust.
mod drawn;

use altuliscia::*;
use drawn::lists;

const THREADS: usize = 8;
const ROUNDS: usize = 40;

/// What all fits and a vote answer, as text: so that NaN equals NaN.
fn all_fits(seed: usize) -> String {
    let n = 5 + seed % 40;
    let l = lists(seed, n);
    let options = Options {
        eps: 0.001,
        shrinking: seed % 4 != 0,
        budget: 300,
    };
    let off = Options {
        shrinking: false,
        ..options
    };
    let samples = OneClass {
        n,
        matrix: &l.matrix,
    };
    let (problem, general) = (l.problem(), l.general(seed % 2 == 0));
    let retired: Vec<bool> = (0..n).map(|k| k % 5 == seed % 5).collect();
    let mut tuned = Tuned::from(options);
    tuned.floor = [1e-10, 1e-12, 1.0][seed % 3];
    let counts = [n as u64];
    let panel = Panel {
        languages: 2,
        coefficients: &l.linear,
        values: &l.matrix[..n],
        coefficient_counts: &counts,
        value_counts: &counts,
        rhos: &[0.5],
    };
    let answers = [
        Training::General(general).fit_tuned(&tuned),
        fit_c(&problem, 2.0, 1.0, &options),
        fit_nu(&problem, 0.3, &options),
        fit_one_class(&samples, 0.4, &options),
        fit_retired(&general, &retired, &off),
        fit_c_retired(&problem, 2.0, 1.0, &retired, &off),
    ];
    format!("{:?} {:?}", answers, votes(&panel))
}

#[test]
fn eight_threads_answer_as_one_does() {
    let alone: Vec<String> = (0..THREADS * 3).map(all_fits).collect();
    let accepted = alone
        .iter()
        .map(|a| a.matches("Ok(").count())
        .sum::<usize>();
    assert!(accepted > THREADS * 15, "{} accepted", accepted);
    let distinct: std::collections::HashSet<&String> = alone.iter().collect();
    assert_eq!(distinct.len(), alone.len());
    std::thread::scope(|scope| {
        for first in 0..THREADS {
            let alone = &alone;
            let small = std::thread::Builder::new().stack_size(STACK_BYTES + 65_536);
            let rounds = move || {
                for k in 0..ROUNDS {
                    let seed = (first + k) % alone.len();
                    assert_eq!(all_fits(seed), alone[seed], "seed {}", seed);
                }
            };
            small.spawn_scoped(scope, rounds).unwrap();
        }
    });
}
