//! Problems from a 64-bit seed, over all that the rule allows and its edges.
//!
//! Five families are drawn. `plain` takes everything from wide lists of kinds.
//! `restless` draws runs that last for several shrink walks over few samples,
//! since a single walk leaves an order that is its own inverse. `tails` draws
//! the shape that ends in refusal 11. `brinks` draws numbers that meet in a
//! comparison, or miss each other by one unit in the last place. `wild` draws
//! the ends of the float range. Then one problem in five is spoiled so that it
//! must be refused.

use crate::problem::{
    Entry, Problem, BAD_FLOOR, LIMIT, LIMIT_BITS, MOST_PASSES, MOST_SAMPLES, SUPPORT_LIMIT,
    USUAL_FLOOR,
};
use crate::random::Random;
use crate::run::solve;

mod faint;
mod modes;
mod retired;
mod step;
mod still;
mod tuned;

pub use faint::{draw_big_faint, draw_faint};
pub use modes::{draw_big_modes, draw_modes};
pub use retired::{draw_retired, redraw_retired};
pub use step::draw_step;
pub use still::{draw_big_still, draw_still};
pub use tuned::{draw_big_tuned, draw_tuned, FLOORS};

/// The least f64 above 0.
pub const TINY: f64 = 5e-324;
/// The next f64 above the support limit, and the next below.
pub const PAST_SUPPORT: f64 = 2.2204460492503134e-14;
pub const SHORT_OF_SUPPORT: f64 = 2.2204460492503128e-14;
/// The next f64 above 2^1000.
pub const PAST_LIMIT: f64 = LIMIT * PAST_ONE;
/// The next f64 above 1.
pub const PAST_ONE: f64 = 1.0 + f64::EPSILON;

/// NaN patterns: quiet and signalling, of both signs, with least and greatest
/// payloads.
pub const NANS: [u64; 7] = [
    0x7ff8_0000_0000_0000,
    0xfff8_0000_0000_0000,
    0x7ff0_0000_0000_0001,
    0xfff0_0000_0000_0001,
    0x7fff_ffff_ffff_ffff,
    0xffff_ffff_ffff_ffff,
    0x7ff4_dead_beef_0000,
];

/// The problem of a seed.
pub fn draw(seed: u64) -> Problem {
    let mut g = Random::new(seed);
    let mut p = family(&mut g);
    finish(&mut g, &mut p);
    p
}

/// A sound problem of one of the families, as yet with a budget of 1.
fn family(g: &mut Random) -> Problem {
    match g.below(24) {
        0..=6 => plain(g),
        7..=15 => restless(g),
        16..=17 => tails(g),
        18..=20 => brinks(g),
        _ => wild(g),
    }
}

fn finish(g: &mut Random, p: &mut Problem) {
    budget(g, p);
    spare_room(g, p);
    if g.one_in(5) {
        spoil(g, p);
    }
}

/// A problem of the given size over a matrix of small whole numbers, with
/// labels that a line nearly tells apart. Its lists are as long as they must
/// be, and its budget is 5000. Of the retired entry about one sample in five
/// is retired.
pub fn draw_big(seed: u64, n: usize, entry: Entry, shrinking: bool) -> Problem {
    let mut g = Random::new(seed);
    let wide = 3 + g.place(3);
    let x: Vec<Vec<i64>> = (0..n)
        .map(|_| (0..wide).map(|_| g.from_to(-3, 3)).collect())
        .collect();
    let entries = square(n, |a, b| {
        let d: i64 = x[a].iter().zip(&x[b]).map(|(u, v)| u * v).sum();
        (d + i64::from(a == b)) as f64
    });
    let mut p = Problem::over(entry, n, &entries);
    p.shrinking = shrinking;
    p.eps = 1e-3;
    p.budget = 5000;
    if entry.has_labels() {
        p.labels = x
            .iter()
            .map(|x| u8::from(x[0] + x[1] - x[2] + g.from_to(-2, 2) > 0))
            .collect();
    }
    match entry {
        Entry::General | Entry::Retired => {
            p.nu_rule = g.coin();
            p.ceilings = (0..n).map(|_| g.pick(&[0.25, 0.5, 1.0])).collect();
            p.alphas = p.ceilings.iter().map(|c| c * g.unit()).collect();
            p.linear = vec![-1.0; n];
        }
        Entry::C => {
            p.cpos = g.pick(&[0.125, 1.0]);
            p.cneg = g.pick(&[0.125, 1.0]);
        }
        Entry::Nu | Entry::OneClass => p.nu = 0.1 + 0.3 * g.unit(),
    }
    if entry == Entry::Retired {
        p.retired = (0..n).map(|_| u8::from(g.one_in(5))).collect();
        retired::redraw(&mut g, &mut p, Kind::Whole(100));
    }
    p
}

// ---- the five families

fn plain(g: &mut Random) -> Problem {
    let n = size(g);
    let kind = Kind::any(g);
    let matrix = matrix(g, n, kind);
    plain_over(g, n, &matrix)
}

fn plain_over(g: &mut Random, n: usize, matrix: &[f64]) -> Problem {
    let entry = g.pick(&Entry::DRAWN);
    let mut p = Problem::over(entry, n, matrix);
    p.shrinking = !g.one_in(4);
    p.eps = eps(g);
    fill(g, &mut p, n, false);
    p
}

fn restless(g: &mut Random) -> Problem {
    let n = match g.below(8) {
        0 => g.from_to(3, 4),
        1..=3 => g.from_to(5, 7),
        4..=6 => g.from_to(8, 10),
        _ => g.from_to(11, 15),
    } as usize;
    let kind = match g.below(6) {
        0..=2 => Kind::Whole(3),
        3 => Kind::Halves,
        _ => Kind::Reals,
    };
    let matrix = lively_matrix(g, n, kind);
    let entry = g.pick(&[
        Entry::General,
        Entry::General,
        Entry::General,
        Entry::C,
        Entry::C,
        Entry::Nu,
        Entry::OneClass,
    ]);
    restless_over(g, entry, n, &matrix)
}

fn restless_over(g: &mut Random, entry: Entry, n: usize, matrix: &[f64]) -> Problem {
    let mut p = Problem::over(entry, n, matrix);
    p.shrinking = true;
    p.eps = g.pick(&[0.0, 1e-12, 1e-9, 1e-6, 1e-4, 1e-2]);
    fill(g, &mut p, n, true);
    if entry == Entry::General && g.coin() {
        // ceilings by place, and weights that are free at the start
        let top = g.pick(&[1.0, 5.0, 50.0]);
        let falling = g.coin();
        let whole = n as f64;
        p.ceilings = (0..n)
            .map(|k| {
                let steps = if falling { n - k } else { k + 1 };
                top * steps as f64 / whole
            })
            .collect();
        p.alphas = p.ceilings.iter().map(|c| c * g.unit()).collect();
    }
    p
}

/// Few free weights in front and a tail at the ceiling with a linear term that
/// keeps it there: the walk gives the tail up more than once.
fn tails(g: &mut Random) -> Problem {
    let front = 1 + g.place(4);
    let tail = 1 + g.place(7);
    let n = front + tail;
    let mut matrix = vec![0.0; n * n];
    let scale = g.pick(&[1.0, 1.0, 0.5, 2.0]);
    for k in 0..n {
        matrix[k * n + k] = scale;
    }
    if g.one_in(3) {
        let (c, r) = (g.place(n), g.place(n));
        matrix[c * n + r] += g.pick(&[0.5, -0.25, 1.0]);
    }
    let mut p = Problem::over(Entry::General, n, &matrix);
    p.shrinking = true;
    p.eps = g.pick(&[0.0, 0.0, 0.0, 1e-9]);
    p.nu_rule = g.one_in(3);
    p.labels = match g.below(4) {
        0 => vec![0; n],
        1 => (0..n).map(|_| u8::from(g.coin())).collect(),
        _ => vec![1; n],
    };
    let top = g.pick(&[100.0, 8.0, 1.0]);
    p.ceilings = vec![top; n];
    if g.one_in(4) {
        p.ceilings[g.place(n)] = top * 2.0;
    }
    p.alphas = (0..n)
        .map(|k| if k < front { top / 2.0 } else { top })
        .collect();
    p.linear = (0..n)
        .map(|k| {
            if k < front {
                g.from_to(-3, 3) as f64
            } else {
                -10.0 * top
            }
        })
        .collect();
    if g.one_in(3) {
        // spread the tail among the front
        for _ in 0..n {
            let (a, b) = (g.place(n), g.place(n));
            p.alphas.swap(a, b);
            p.linear.swap(a, b);
        }
        for (a, c) in p.alphas.iter_mut().zip(&p.ceilings) {
            *a = a.min(*c);
        }
    }
    p
}

fn brinks(g: &mut Random) -> Problem {
    if g.coin() {
        poised(g)
    } else {
        grid(g)
    }
}

/// Quarters and halves over a matrix whose curvatures are powers of two, so
/// that steps, sums and levels come out exactly at a ceiling or at eps.
fn grid(g: &mut Random) -> Problem {
    let n = 2 + g.place(5);
    let scale = g.pick(&[1.0, 1.0, 2.0, 0.5]);
    let mut m = square(n, |a, b| if a == b { scale } else { 0.0 });
    if g.one_in(4) {
        let (a, b) = (g.place(n), g.place(n));
        m[a * n + b] = 1.0;
        m[b * n + a] = 1.0;
    }
    let mut p = Problem::over(Entry::General, n, &m);
    p.shrinking = !g.one_in(4);
    // ten times most of these is exactly a power of two
    p.eps = g.pick(&[0.0, 0.0125, 0.025, 0.05, 0.1, 0.2, 0.4, 0.5, 1.0]);
    p.nu_rule = g.one_in(3);
    p.labels = labels(g, n, false);
    let tops = [1.0, 2.0, 0.5, 4.0, 16.0];
    let same = g.pick(&tops);
    let equal = g.coin();
    p.ceilings = (0..n)
        .map(|_| if equal { same } else { g.pick(&tops) })
        .collect();
    p.alphas = p
        .ceilings
        .iter()
        .map(|c| c * g.from_to(0, 4) as f64 / 4.0)
        .collect();
    p.linear = (0..n)
        .map(|_| {
            let x = g.from_to(-8, 8) as f64 / 2.0;
            nudged(g, x)
        })
        .collect();
    p
}

/// The float, or one that is at most two units in the last place away.
fn nudged(g: &mut Random, x: f64) -> f64 {
    if x == 0.0 || g.coin() {
        x
    } else {
        f64::from_bits(x.to_bits() - 2 + g.below(5))
    }
}

/// The float, or the next one above or below. A zero stays.
fn next_door(g: &mut Random, x: f64) -> f64 {
    if x == 0.0 {
        return x;
    }
    f64::from_bits(x.to_bits() - 1 + g.below(3))
}

/// Two samples whose first step ends just at, before or past the place where
/// one weight meets its ceiling or 0, often with the other one there too.
fn poised(g: &mut Random) -> Problem {
    let tops = [1.0, 2.0, 0.5, 4.0];
    let scale = g.pick(&[1.0, 2.0, 0.5]);
    let u = [g.pick(&tops), g.pick(&tops)];
    let agree = g.coin();
    let a = u[0] * g.pick(&[0.25, 0.5, 0.75, 0.5, 0.0]);
    // the second weight for which both ends are met at once, if it is in range
    let together = if agree { u[0] - a } else { a - (u[0] - u[1]) };
    let b = if (0.0..=u[1]).contains(&together) && !g.one_in(4) {
        together
    } else {
        u[1] * g.from_to(0, 4) as f64 / 4.0
    };
    // with labels that agree the first weight rises by t and the second falls;
    // else both rise by t, or fall by -t
    let t = if agree {
        g.pick(&[b, u[0] - a])
    } else {
        g.pick(&[u[0] - a, u[1] - b, -a, -b])
    };
    let t = if t == 0.0 {
        t
    } else {
        f64::from_bits(t.to_bits() - 1 + g.pick(&[0, 1, 1, 2, 2, 2, 3]))
    };
    // the two gradients share what makes the step; one alone keeps more bits
    let pull = 2.0 * scale * t;
    let (first, second) = match g.below(5) {
        0..=1 => (pull, 0.0),
        2..=3 => (0.0, pull),
        _ => (pull / 2.0, pull / 2.0),
    };
    let second = if agree { second } else { -second };
    let linear = [-first - scale * a, second - scale * b];
    let mut p = Problem::over(Entry::General, 2, &[scale, 0.0, 0.0, scale]);
    p.labels = if agree {
        vec![u8::from(g.coin()); 2]
    } else {
        vec![1, 0]
    };
    p.ceilings = u.to_vec();
    p.alphas = vec![a, b];
    p.linear = linear.to_vec();
    if g.coin() {
        p.labels.swap(0, 1);
        p.ceilings.swap(0, 1);
        p.alphas.swap(0, 1);
        p.linear.swap(0, 1);
    }
    p.nu_rule = agree && g.one_in(3);
    p.shrinking = g.coin();
    // the level of the first choice is often exactly this
    p.eps = g.pick(&[0.0, 0.0, 1e-3, pull.abs()]);
    p
}

fn wild(g: &mut Random) -> Problem {
    let n = 1 + g.place(8);
    let kind = g.pick(&[
        Kind::Huge,
        Kind::Huge,
        Kind::Patterns,
        Kind::Tiny,
        Kind::Mixed,
        Kind::Mixed,
        Kind::Whole(3),
        Kind::Reals,
    ]);
    let matrix = matrix(g, n, kind);
    let entry = g.pick(&[
        Entry::General,
        Entry::General,
        Entry::C,
        Entry::Nu,
        Entry::OneClass,
    ]);
    let mut p = Problem::over(entry, n, &matrix);
    p.shrinking = !g.one_in(4);
    p.eps = eps(g);
    fill(g, &mut p, n, false);
    if entry == Entry::General && g.coin() {
        // a product with such a weight can be infinite, and a sum of two NaN
        p.ceilings = (0..n).map(|_| g.pick(&[LIMIT, LIMIT, 1.0])).collect();
        p.alphas = alphas(g, &p.ceilings);
    }
    if entry == Entry::General {
        let ends = [1e308, -1e308, f64::MAX, -f64::MAX, 1e300, -0.0, TINY, 0.0];
        for x in &mut p.linear {
            if g.coin() {
                *x = g.pick(&ends);
            }
        }
    }
    p
}

/// Mostly a few samples, sometimes to 24, rarely to 80.
fn size(g: &mut Random) -> usize {
    let n = match g.below(240) {
        0..=2 => g.from_to(25, 80),
        3..=26 => g.from_to(11, 24),
        27..=100 => g.from_to(7, 10),
        101..=112 => 1,
        _ => g.from_to(2, 6),
    };
    n as usize
}

/// Labels, ceilings, weights, linear term, nu: what the entry takes beside the
/// matrix. `calm` keeps to numbers of everyday size.
fn fill(g: &mut Random, p: &mut Problem, n: usize, calm: bool) {
    if p.entry.has_labels() {
        p.labels = labels(g, n, calm);
    }
    match p.entry {
        Entry::General | Entry::Retired => {
            p.nu_rule = g.one_in(3);
            p.ceilings = ceilings(g, &p.labels, calm);
            p.alphas = alphas(g, &p.ceilings);
            p.linear = linear(g, n, calm);
        }
        Entry::C => {
            p.cpos = ceiling(g, calm);
            p.cneg = if g.coin() { p.cpos } else { ceiling(g, calm) };
        }
        Entry::Nu | Entry::OneClass => p.nu = nu(g, n),
    }
}

// ---- matrices

/// What single numbers look like.
#[derive(Clone, Copy)]
enum Kind {
    Whole(i64),
    Halves,
    Reals,
    Huge,
    Tiny,
    Zeros,
    Patterns,
    Mixed,
}

impl Kind {
    fn any(g: &mut Random) -> Kind {
        match g.below(16) {
            0..=3 => Kind::Whole(3),
            4 => Kind::Whole(100),
            5..=6 => Kind::Halves,
            7..=10 => Kind::Reals,
            11 => Kind::Huge,
            12 => Kind::Tiny,
            13 => Kind::Zeros,
            14 => Kind::Patterns,
            _ => Kind::Mixed,
        }
    }

    /// A number of this kind, of magnitude at most 2^1000.
    fn number(self, g: &mut Random) -> f64 {
        match self {
            Kind::Whole(k) => g.from_to(-k, k) as f64,
            Kind::Halves => g.from_to(-6, 6) as f64 / 2.0,
            Kind::Reals => g.signed() * g.pick(&[1.0, 1.0, 10.0]),
            Kind::Huge => match g.below(4) {
                0 => g.either_sign(LIMIT),
                1 => {
                    let x = power(g.from_to(900, 1000));
                    g.either_sign(x)
                }
                2 => g.signed() * LIMIT,
                _ => {
                    let x = power(g.from_to(400, 600));
                    g.either_sign(x)
                }
            },
            Kind::Tiny => match g.below(3) {
                0 => g.either_sign(TINY),
                1 => {
                    let pattern = g.word() >> 12;
                    g.either_sign(f64::from_bits(pattern))
                }
                _ => g.either_sign(f64::MIN_POSITIVE),
            },
            Kind::Zeros => g.either_sign(0.0),
            Kind::Patterns => {
                let pattern = g.below(LIMIT_BITS + 1);
                g.either_sign(f64::from_bits(pattern))
            }
            Kind::Mixed => {
                let kind = g.pick(&[
                    Kind::Whole(3),
                    Kind::Reals,
                    Kind::Huge,
                    Kind::Tiny,
                    Kind::Zeros,
                    Kind::Patterns,
                ]);
                kind.number(g)
            }
        }
    }
}

/// 2 to the given power, from -1022 to 1023.
fn power(exponent: i64) -> f64 {
    f64::from_bits(((exponent + 1023) as u64) << 52)
}

fn within_limit(x: f64) -> f64 {
    if x.is_nan() {
        0.0
    } else {
        x.clamp(-LIMIT, LIMIT)
    }
}

fn matrix(g: &mut Random, n: usize, kind: Kind) -> Vec<f64> {
    let mut m = match g.below(16) {
        0 => vec![0.0; n * n],
        1 => diagonal(g, n, kind),
        2..=6 => gram(g, n, kind),
        7 => ratio(g, n),
        8..=9 => repeated(g, n, kind),
        10..=12 => symmetric(g, n, kind),
        _ => (0..n * n).map(|_| kind.number(g)).collect(),
    };
    if g.one_in(10) {
        let scale = power(g.pick(&[-1022, -600, -30, -2, 3, 40, 500, 990]));
        for x in &mut m {
            *x = within_limit(*x * scale);
        }
    }
    if g.one_in(8) {
        let edges = [LIMIT, -LIMIT, -0.0, 0.0, TINY, -TINY, 1.0];
        for _ in 0..1 + g.below(3) {
            let k = g.place(n * n);
            m[k] = g.pick(&edges);
        }
    }
    m
}

/// A matrix over which a run goes on for many passes.
fn lively_matrix(g: &mut Random, n: usize, kind: Kind) -> Vec<f64> {
    let mut m = match g.below(8) {
        0..=3 => gram(g, n, kind),
        4 => ratio(g, n),
        5 => repeated(g, n, kind),
        6 => symmetric(g, n, kind),
        _ => (0..n * n).map(|_| kind.number(g)).collect(),
    };
    match g.below(6) {
        0 => {
            let ridge = g.pick(&[0.01, 0.5, 1.0]);
            for k in 0..n {
                m[k * n + k] += ridge;
            }
        }
        1 => {
            for x in &mut m {
                *x += 0.3 * g.signed();
            }
        }
        _ => {}
    }
    m
}

/// Nearly the same run over a kernel of so many times the size.
fn scale_kernel(p: &mut Problem, scale: f64) {
    for (k, x) in p.entries().into_iter().enumerate() {
        p.set_pattern(k, within_limit(x * scale).to_bits());
    }
    if p.entry == Entry::C {
        for ceiling in [&mut p.cpos, &mut p.cneg] {
            *ceiling = within_limit(*ceiling / scale);
        }
        return;
    }
    for x in p.linear.iter_mut().chain([&mut p.eps]) {
        *x *= scale;
    }
}

fn diagonal(g: &mut Random, n: usize, kind: Kind) -> Vec<f64> {
    let mut m = vec![0.0; n * n];
    let same = kind.number(g);
    let one = g.coin();
    for k in 0..n {
        m[k * n + k] = if one { same } else { kind.number(g) };
    }
    m
}

fn square(n: usize, entry: impl Fn(usize, usize) -> f64) -> Vec<f64> {
    (0..n * n).map(|k| entry(k / n, k % n)).collect()
}

fn points(g: &mut Random, n: usize, wide: usize, kind: Kind) -> Vec<Vec<f64>> {
    let kind = match kind {
        // products of these leave the range or vanish
        Kind::Huge | Kind::Patterns | Kind::Mixed | Kind::Tiny => Kind::Reals,
        other => other,
    };
    (0..n)
        .map(|_| (0..wide).map(|_| kind.number(g)).collect())
        .collect()
}

fn dot(a: &[f64], b: &[f64]) -> f64 {
    a.iter().zip(b).fold(0.0, |sum, (x, y)| sum + x * y)
}

/// Inner products of drawn points, perhaps raised to a polynomial kernel.
fn gram(g: &mut Random, n: usize, kind: Kind) -> Vec<f64> {
    let wide = 1 + g.place(5);
    let x = points(g, n, wide, kind);
    let shape = g.below(3);
    square(n, |a, b| {
        let d = dot(&x[a], &x[b]);
        match shape {
            0 => d,
            1 => d + 1.0,
            _ => (d + 1.0) * (d + 1.0),
        }
    })
}

/// 1 / (1 + distance²): positive semidefinite, with a diagonal of ones.
fn ratio(g: &mut Random, n: usize) -> Vec<f64> {
    let wide = 1 + g.place(3);
    let x = points(g, n, wide, Kind::Reals);
    let scale = g.pick(&[0.1, 1.0, 1.0, 10.0]);
    square(n, |a, b| {
        let apart = x[a]
            .iter()
            .zip(&x[b])
            .fold(0.0, |sum, (u, v)| sum + (u - v) * (u - v));
        1.0 / (1.0 + scale * apart)
    })
}

/// Inner products where few points stand for many samples.
fn repeated(g: &mut Random, n: usize, kind: Kind) -> Vec<f64> {
    let few = 1 + g.place((n + 1) / 2);
    let wide = 1 + g.place(3);
    let x = points(g, few, wide, kind);
    let which: Vec<usize> = (0..n).map(|_| g.place(few)).collect();
    square(n, |a, b| dot(&x[which[a]], &x[which[b]]))
}

fn symmetric(g: &mut Random, n: usize, kind: Kind) -> Vec<f64> {
    let all: Vec<f64> = (0..n * n).map(|_| kind.number(g)).collect();
    square(n, |a, b| all[a.min(b) * n + a.max(b)])
}

// ---- the lists and the single numbers

fn labels(g: &mut Random, n: usize, calm: bool) -> Vec<u8> {
    let kinds = if calm { 8 } else { 10 };
    match g.below(kinds) {
        0..=5 => (0..n).map(|_| u8::from(g.coin())).collect(),
        6 => (0..n).map(|k| u8::from(k % 2 == 0)).collect(),
        7 => (0..n).map(|k| u8::from(k < n / 2)).collect(),
        8 => vec![1; n],
        _ => vec![0; n],
    }
}

fn ceiling(g: &mut Random, calm: bool) -> f64 {
    let kinds = if calm { 7 } else { 10 };
    match g.below(kinds) {
        0 => 1.0,
        1 => g.from_to(1, 5) as f64,
        2 => 0.5,
        3 => g.unit() + 0.01,
        4..=5 => g.pick(&[5.0, 10.0, 100.0]),
        6 => 1000.0 * (g.unit() + 0.001),
        7 => g.pick(&[LIMIT, power(500), 1e20]),
        8 => g.pick(&[TINY, 1e-300, 1e-10]),
        _ => 1.0,
    }
}

fn ceilings(g: &mut Random, labels: &[u8], calm: bool) -> Vec<f64> {
    let n = labels.len();
    match g.below(4) {
        0 => vec![ceiling(g, calm); n],
        1 => {
            let both = [ceiling(g, calm), ceiling(g, calm)];
            labels.iter().map(|y| both[usize::from(*y)]).collect()
        }
        2 => (0..n).map(|_| g.unit() + 0.05).collect(),
        _ => (0..n).map(|_| ceiling(g, calm)).collect(),
    }
}

fn alphas(g: &mut Random, ceilings: &[f64]) -> Vec<f64> {
    let kind = g.below(8);
    let fraction = g.unit();
    ceilings
        .iter()
        .map(|c| match kind {
            0..=1 => 0.0,
            2 => *c,
            3 => g.pick(&[0.0, -0.0]),
            4 => c * fraction,
            5 => c * g.unit(),
            _ => match g.below(5) {
                0 => 0.0,
                1 => -0.0,
                2 => *c,
                3 => c / 2.0,
                _ => c * g.unit(),
            },
        })
        .collect()
}

fn linear(g: &mut Random, n: usize, calm: bool) -> Vec<f64> {
    let kind = g.below(if calm { 9 } else { 12 });
    (0..n)
        .map(|_| match kind {
            0..=3 => -1.0,
            4 => 0.0,
            5 => g.pick(&[0.0, -0.0]),
            6 => g.from_to(-4, 4) as f64,
            7 => 3.0 * g.signed(),
            8 => g.from_to(-1, 1) as f64 * g.pick(&[1.0, 50.0]),
            9 => {
                let end = g.pick(&[1e308, f64::MAX, 1e200]);
                g.either_sign(end)
            }
            _ => {
                let x = g.pick(&[1.0, 1e308, TINY, 0.0, 1e16, 0.1]);
                g.either_sign(x)
            }
        })
        .collect()
}

fn nu(g: &mut Random, n: usize) -> f64 {
    let size = n as f64;
    match g.below(8) {
        0..=2 => g.unit() + power(-54),
        3..=4 => (1 + g.place(n)) as f64 / size,
        5 => g.pick(&[1.0, 1.0 - power(-53), 0.5]),
        6 => g.pick(&[TINY, 1e-300, 1e-10]),
        _ => 0.2 + 0.6 * g.unit(),
    }
}

fn eps(g: &mut Random) -> f64 {
    match g.below(16) {
        0..=3 => 0.0,
        4 => TINY,
        5..=7 => 1e-12,
        8..=12 => 1e-3,
        13 => g.unit(),
        14 => g.pick(&[1.0, 2.0, 10.0]),
        _ => g.pick(&[1e300, f64::MAX, LIMIT]),
    }
}

/// Mostly at most 2000 passes. A larger budget is given only to a run that
/// ends before; and sometimes the budget is just what a run takes.
fn budget(g: &mut Random, p: &mut Problem) {
    let n = p.n as i64;
    p.budget = match g.below(16) {
        0 => 1,
        1..=2 => g.from_to(2, n + 2),
        3..=9 => g.from_to(10, 300),
        10..=13 => g.from_to(301, 2000),
        _ => 2000,
    } as u64;
    if g.one_in(10) {
        p.budget = 2000;
        let answer = solve(p, false);
        let a = match answer.accepted() {
            Some(a) if a.iterations < 2000 => a,
            _ => return,
        };
        p.budget = match g.below(4) {
            0 => a.iterations.max(1),
            1 => a.iterations + 1,
            2 => MOST_PASSES,
            _ => 2001 + g.below(MOST_PASSES - 2000),
        };
    }
}

/// Sometimes more room than must be lent.
fn spare_room(g: &mut Random, p: &mut Problem) {
    let more = g.one_in(4);
    for len in [
        &mut p.crate_len,
        &mut p.home_len,
        &mut p.scratch_floats,
        &mut p.scratch_numbers,
        &mut p.scratch_bytes,
    ] {
        if more && g.coin() {
            *len += g.below(6);
        }
    }
}

// ---- what must be refused

/// Spoils a sound problem in one to three ways. A floor is left as it is: other
/// draws than `draw_tuned` have the usual one.
fn spoil(g: &mut Random, p: &mut Problem) {
    let numbers = p.entry.judged().filter(|k| *k != BAD_FLOOR);
    let numbers: Vec<u64> = numbers.collect();
    let ways = match g.below(8) {
        0..=4 => 1,
        5..=6 => 2,
        _ => 3,
    };
    let mut chosen: Vec<u64> = (0..ways).map(|_| g.pick(&numbers)).collect();
    // single values first, then lengths, then n: each finds its list in place
    chosen.sort_unstable();
    chosen.dedup();
    for number in chosen.into_iter().rev() {
        spoil_by(g, p, number);
    }
}

fn nan(g: &mut Random) -> f64 {
    f64::from_bits(g.pick(&NANS))
}

/// A bad value: one of the list, or every third time a NaN.
fn bad(g: &mut Random, others: &[f64]) -> f64 {
    if g.one_in(3) {
        nan(g)
    } else {
        g.pick(others)
    }
}

/// Neither 0 nor 1.
fn bad_byte(g: &mut Random) -> u8 {
    match g.below(4) {
        0 => 2,
        1 => 255,
        2 => 128,
        _ => 2 + g.below(254) as u8,
    }
}

/// Bad values at one to three places of a list.
fn bad_places<T>(g: &mut Random, list: &mut [T], value: impl Fn(&mut Random, usize) -> T) {
    if list.is_empty() {
        return;
    }
    for _ in 0..1 + g.below(3) {
        let k = match g.below(4) {
            0 => 0,
            1 => list.len() - 1,
            _ => g.place(list.len()),
        };
        list[k] = value(g, k);
    }
}

const BAD_CEILINGS: [f64; 8] = [
    0.0,
    -0.0,
    -1.0,
    -TINY,
    PAST_LIMIT,
    f64::INFINITY,
    f64::NEG_INFINITY,
    f64::MAX,
];

const BAD_FLOORS: [f64; 9] = [
    0.0,
    -0.0,
    PAST_ONE,
    2.0,
    -TINY,
    -USUAL_FLOOR,
    -1.0,
    f64::INFINITY,
    f64::NEG_INFINITY,
];

fn spoil_by(g: &mut Random, p: &mut Problem, number: u64) {
    match number {
        1 => {
            p.n = g.pick(&[
                0,
                0,
                MOST_SAMPLES + 1,
                MOST_SAMPLES + 2,
                1024,
                1 << 31,
                1 << 32,
                1 << 61,
                (1 << 61) + p.n,
                1 << 63,
                u64::MAX,
            ]);
            if g.coin() {
                p.matrix.clear();
                p.labels.clear();
                p.ceilings.clear();
                p.alphas.clear();
                p.linear.clear();
                p.retired.clear();
            }
        }
        2 => spoil_length(g, p),
        3 => {
            let mut entries = p.entries();
            let others = [
                f64::INFINITY,
                f64::NEG_INFINITY,
                PAST_LIMIT,
                -PAST_LIMIT,
                f64::MAX,
                -f64::MAX,
            ];
            bad_places(g, &mut entries, |g, _| bad(g, &others));
            for (k, x) in entries.iter().enumerate() {
                p.set_pattern(k, x.to_bits());
            }
        }
        4 => bad_places(g, &mut p.labels, |g, _| bad_byte(g)),
        5 if p.entry == Entry::C => {
            if g.coin() {
                p.cpos = bad(g, &BAD_CEILINGS);
            }
            if p.cpos > 0.0 && p.cpos <= LIMIT || g.coin() {
                p.cneg = bad(g, &BAD_CEILINGS);
            }
        }
        5 => bad_places(g, &mut p.ceilings, |g, _| bad(g, &BAD_CEILINGS)),
        6 => {
            let ceilings = p.ceilings.clone();
            bad_places(g, &mut p.alphas, |g, k| {
                let past = f64::from_bits(ceilings[k].to_bits() + 1);
                bad(
                    g,
                    &[past, past, -TINY, -1.0, f64::INFINITY, f64::NEG_INFINITY],
                )
            });
        }
        7 => bad_places(g, &mut p.linear, |g, _| {
            bad(g, &[f64::INFINITY, f64::NEG_INFINITY])
        }),
        8 => {
            p.eps = bad(
                g,
                &[f64::INFINITY, f64::NEG_INFINITY, -0.0, -0.0, -TINY, -1e-3],
            )
        }
        9 => {
            let others = [0.0, -0.0, -TINY, -0.5, PAST_ONE, 2.0, f64::INFINITY];
            p.nu = bad(g, &others);
        }
        10 => p.budget = g.pick(&[0, 0, MOST_PASSES + 1, 1 << 32, 1 << 63, u64::MAX]),
        12 => bad_places(g, &mut p.retired, |g, _| bad_byte(g)),
        13 => p.shrinking = true,
        _ => p.floor = bad(g, &BAD_FLOORS),
    }
}

/// One list too short or too long, or n itself one off.
fn spoil_length(g: &mut Random, p: &mut Problem) {
    let n = p.n;
    let shorter = g.coin();
    let ways = if p.entry == Entry::Retired { 13 } else { 12 };
    match g.below(ways) {
        0 => {
            let bytes = g.pick(&[1, 8]).min(p.matrix.len());
            if shorter {
                p.matrix.truncate(p.matrix.len() - bytes);
            } else {
                p.matrix.extend(vec![0; bytes]);
            }
        }
        1 => p.matrix.clear(),
        2 if p.entry.has_labels() => off_by_one(&mut p.labels, shorter, 1),
        3 if p.entry.has_lists() => off_by_one(&mut p.ceilings, shorter, 1.0),
        4 if p.entry.has_lists() => off_by_one(&mut p.alphas, shorter, 0.0),
        5 if p.entry.has_lists() => off_by_one(&mut p.linear, shorter, 0.0),
        6 => p.crate_len = if shorter { n - 1 } else { 0 },
        7 => p.home_len = if shorter { n - 1 } else { 0 },
        8 => p.scratch_floats = if shorter { 7 * n - 1 } else { n },
        9 => p.scratch_numbers = if shorter { 2 * n - 1 } else { n },
        10 => p.scratch_bytes = if shorter { n - 1 } else { 0 },
        12 => off_by_one(&mut p.retired, shorter, 0),
        _ => p.n = if shorter && n > 1 { n - 1 } else { n + 1 },
    }
}

fn off_by_one<T: Copy>(list: &mut Vec<T>, shorter: bool, item: T) {
    if shorter {
        list.pop();
    } else {
        list.push(item);
    }
}
