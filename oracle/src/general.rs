//! C, nu and one-class as problems of the general entry: what each starts from,
//! and what it makes of the general answer. Its words are those of the published
//! fits.

use crate::problem::{Entry, Problem, SUPPORT_LIMIT};
use crate::run::canonical;

/// The general problem that the entry's run is on. The lists are as long as n
/// says, and n is what it must be.
pub fn general(p: &Problem) -> Problem {
    let n = p.n as usize;
    let mut q = p.clone();
    q.entry = Entry::General;
    q.nu_rule = p.entry == Entry::Nu;
    q.ceilings = vec![1.0; n];
    q.linear = vec![0.0; n];
    match p.entry {
        Entry::C => {
            let ceiling = |y: &u8| if *y == 1 { p.cpos } else { p.cneg };
            q.ceilings = p.labels.iter().map(ceiling).collect();
            q.alphas = vec![0.0; n];
            q.linear = vec![-1.0; n];
        }
        Entry::Nu => q.alphas = shares(p.nu, &p.labels),
        Entry::OneClass => {
            q.labels = vec![1; n];
            q.alphas = front(p.nu, n);
        }
        Entry::General | Entry::Retired => unreachable!("it has lists of its own"),
    }
    q
}

/// Each label's half of nu·n, from the front.
fn shares(nu: f64, labels: &[u8]) -> Vec<f64> {
    let mut left = [nu * labels.len() as f64 / 2.0; 2];
    let share = |y: &u8| {
        let left = &mut left[usize::from(*y)];
        let share = left.min(1.0);
        *left -= share;
        share
    };
    labels.iter().map(share).collect()
}

/// nu·n from the front.
fn front(nu: f64, n: usize) -> Vec<f64> {
    let all = nu * n as f64;
    let whole = all as usize;
    let share = |k: usize| match k.cmp(&whole) {
        std::cmp::Ordering::Less => 1.0,
        std::cmp::Ordering::Equal => all - k as f64,
        std::cmp::Ordering::Greater => 0.0,
    };
    (0..n).map(share).collect()
}

/// What a general call wrote, as the entry answers it: the words of both
/// readings, n each, then the nine of the answer. Signed, and with the nu rule
/// divided by r.
pub fn finished(p: &Problem, written: &[u64]) -> Vec<u64> {
    let n = p.n as usize;
    let answer = &written[2 * n..];
    let divided = p.entry == Entry::Nu;
    let r = f64::from_bits(answer[4]);
    let finish = |(k, word): (usize, &u64)| {
        let x = f64::from_bits(*word);
        let x = match p.labels.get(k % n) {
            Some(0) => -x,
            _ => x,
        };
        canonical(if divided { x / r } else { x })
    };
    let mut all: Vec<u64> = written[..2 * n].iter().enumerate().map(finish).collect();
    let home = all[n..].iter().map(|x| f64::from_bits(*x).abs());
    let support = home.filter(|x| *x > SUPPORT_LIMIT).count() as u64;
    all.extend(answer);
    if divided {
        let [rho, obj] = [answer[2], answer[5]].map(f64::from_bits);
        all[2 * n + 2] = canonical(rho / r);
        all[2 * n + 5] = canonical(obj / (r * r));
    }
    all[2 * n + 8] = support;
    all
}

#[cfg(test)]
mod tests {
    use super::*;
    use crate::run::{solve, Accepted, Answer};
    use crate::{draw_still, judge};

    fn written(a: &Accepted) -> Vec<u64> {
        let words = a.crate_reading.iter().chain(&a.home).map(|x| canonical(*x));
        let (r, present) = (a.r.map_or(0, canonical), u64::from(a.r.is_some()));
        let reason = a.reason as u64;
        words
            .chain([0, 0, canonical(a.rho), present, r, canonical(a.obj)])
            .chain([a.iterations, reason, a.support])
            .collect()
    }

    /// The published fit, and the published solver on its general problem.
    #[test]
    fn a_fit_is_its_general_problem_finished() {
        let mut accepted = 0;
        for seed in 0..3000 {
            let p = draw_still(seed);
            if judge(&p).is_some() {
                continue;
            }
            let q = general(&p);
            let both: [Answer; 2] = [&p, &q].map(|p| solve(p, false));
            let [one, other] = both.each_ref().map(|a| a.accepted().unwrap());
            assert_eq!(written(one), finished(&p, &written(other)), "seed {seed}");
            accepted += 1;
        }
        assert!(accepted > 2000);
    }
}
