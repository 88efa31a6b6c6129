//! Problems whose answers have weights at the support limit, next door to it
//! and far below. The other draws seldom come near it. None of these is refused
//! before its run.

use super::*;

/// Bits of a seed that are turned, so that a problem has nothing to do with the
/// one that `draw` gives.
const OWN: u64 = 0xfa12_0115_c1a0_7e57;

/// The problem of a seed, of any of the five entries.
pub fn draw_faint(seed: u64) -> Problem {
    let g = &mut Random::new(seed ^ OWN);
    let mut p = match g.below(12) {
        0..=1 => still(g),
        2..=4 => filled(g),
        5..=9 => {
            let mut p = restless(g);
            aim(g, &mut p);
            p
        }
        10 => shared(g),
        _ => beyond(g),
    };
    if p.entry == Entry::General && g.one_in(4) {
        p = retired::retire(g, p);
    }
    budget(g, &mut p);
    spare_room(g, &mut p);
    p
}

/// As [`draw_big`], aimed at the limit.
pub fn draw_big_faint(seed: u64, n: usize, entry: Entry, shrinking: bool) -> Problem {
    let mut p = draw_big(seed, n, entry, shrinking);
    aim(&mut Random::new(seed ^ OWN), &mut p);
    p
}

/// At the limit, next door, near or far below; now and then an everyday number.
fn magnitude(g: &mut Random) -> f64 {
    match g.below(12) {
        0..=3 => SUPPORT_LIMIT,
        4..=5 => PAST_SUPPORT,
        6..=7 => SHORT_OF_SUPPORT,
        8 => TINY,
        9 => 1e-15,
        10 => SUPPORT_LIMIT * (0.5 + g.unit()),
        _ => g.pick(&[1.0, 0.5, 1e-10]),
    }
}

/// Nothing moves: what is lent is answered.
fn still(g: &mut Random) -> Problem {
    let n = 1 + g.place(5);
    let mut p = Problem::over(Entry::General, n, &vec![0.0; n * n]);
    p.shrinking = g.coin();
    p.eps = eps(g);
    p.nu_rule = g.one_in(3);
    p.labels = labels(g, n, false);
    p.linear = vec![0.0; n];
    for _ in 0..n {
        let top = magnitude(g);
        p.alphas.push(g.pick(&[top, top, 0.0]));
        p.ceilings.push(g.pick(&[top, 1.0]));
    }
    p
}

/// Ceilings of such magnitudes, and a linear term that lifts every weight to
/// its own.
fn filled(g: &mut Random) -> Problem {
    let n = 2 + g.place(5);
    let kind = g.pick(&[Kind::Whole(3), Kind::Halves, Kind::Reals]);
    let matrix = lively_matrix(g, n, kind);
    let entry = g.pick(&[Entry::C, Entry::C, Entry::General]);
    let mut p = Problem::over(entry, n, &matrix);
    p.shrinking = g.coin();
    p.eps = g.pick(&[0.0, 1e-12, 1e-3]);
    p.labels = labels(g, n, true);
    if entry == Entry::C {
        p.cpos = magnitude(g);
        p.cneg = if g.coin() { p.cpos } else { magnitude(g) };
    } else {
        p.ceilings = (0..n).map(|_| magnitude(g)).collect();
        p.alphas = alphas(g, &p.ceilings);
        p.linear = vec![-1.0; n];
    }
    p
}

/// Scales a problem so that one of its weights comes to the limit, or to a few
/// units in the last place of it. The run stays nearly what it was.
fn aim(g: &mut Random, p: &mut Problem) {
    if p.entry == Entry::OneClass {
        return share(g, p);
    }
    let mut tried = p.clone();
    tried.budget = 2000;
    let answer = solve(&tried, false);
    let home = answer.accepted().map_or(&[][..], |a| &a.home);
    let weights = home.iter().map(|x| x.abs());
    let weights: Vec<f64> = weights.filter(|x| *x > 0.0 && x.is_finite()).collect();
    if weights.is_empty() {
        return;
    }
    let weight = g.pick(&weights);
    let scale = nudged(g, weight) / SUPPORT_LIMIT;
    match p.entry {
        Entry::C | Entry::Nu => scale_kernel(p, scale),
        _ => {
            let lists = [&mut p.ceilings, &mut p.alphas, &mut p.linear];
            for x in lists.into_iter().flatten().chain([&mut p.eps]) {
                *x /= scale;
            }
        }
    }
}

/// The weights of one class add up to nu·n: here to the limit once or several
/// times, by itself or above a whole number.
fn share(g: &mut Random, p: &mut Problem) {
    let parts = SUPPORT_LIMIT * (1 + g.place(4)) as f64;
    let whole = g.pick(&[0, 0, 0, 1, p.n - 1]).min(p.n - 1);
    p.nu = (whole as f64 + nudged(g, parts)) / p.n as f64;
    p.eps = g.pick(&[0.0, 0.0, p.eps]);
}

fn shared(g: &mut Random) -> Problem {
    let n = 1 + g.place(5);
    let kind = g.pick(&[Kind::Whole(3), Kind::Reals]);
    let matrix = if g.coin() {
        square(n, |a, b| f64::from(u8::from(a == b)))
    } else {
        lively_matrix(g, n, kind)
    };
    let mut p = Problem::over(Entry::OneClass, n, &matrix);
    p.shrinking = g.coin();
    share(g, &mut p);
    p
}

/// A nu problem whose r is NaN, since one label is missing, or 0: its weights
/// are NaN, or divided by 0.
fn beyond(g: &mut Random) -> Problem {
    let n = 2 + g.place(5);
    let one_label = g.coin();
    let matrix = if one_label {
        lively_matrix(g, n, Kind::Whole(3))
    } else {
        vec![0.0; n * n]
    };
    let mut p = Problem::over(Entry::Nu, n, &matrix);
    p.shrinking = g.coin();
    p.eps = eps(g);
    p.labels = if one_label {
        vec![u8::from(g.coin()); n]
    } else {
        labels(g, n, true)
    };
    p.nu = g.pick(&[0.25, 0.5, 0.75]);
    p
}
