//! Problems with floors of their own. Most have curvatures of 0 and below: only
//! there a floor has a say.

use super::*;

/// Bits of a seed that are turned, so that a problem has nothing to do with the
/// one that `draw` gives.
const OWN: u64 = 0xf100_0115_c1a0_7e57;

/// Floors that are drawn with the next f64 on either side. Below the first is 0;
/// that and the one above the last are refused.
pub const FLOORS: [f64; 5] = [TINY, 1e-300, 1e-12, USUAL_FLOOR, 1.0];

/// The problem of a seed, of any of the five entries.
pub fn draw_tuned(seed: u64) -> Problem {
    let g = &mut Random::new(seed ^ OWN);
    let floor = floor(g);
    let kind = g.below(12);
    let mut p = match kind {
        0..=4 => bent(g),
        5..=7 => flat(g, sound(floor)),
        8..=9 => wide(g),
        _ => family(g),
    };
    if kind <= 4 && !g.one_in(4) {
        approach(g, &mut p, sound(floor));
    }
    p.floor = floor;
    if p.entry == Entry::General && g.one_in(4) {
        p = retired::retire(g, p);
    }
    budget(g, &mut p);
    if (5..=7).contains(&kind) && g.coin() {
        // a second step brings most of them to an end of the box
        p.budget = 1 + g.below(3);
    }
    spare_room(g, &mut p);
    if g.one_in(8) {
        spoil(g, &mut p);
    }
    if g.one_in(if p.entry == Entry::Retired { 8 } else { 40 }) {
        // the last of the refusals side by side
        let last = p.entry.judged().filter(|k| *k >= 10);
        for number in last.collect::<Vec<u64>>() {
            if g.coin() {
                spoil_by(g, &mut p, number);
            }
        }
    }
    p
}

/// As [`draw_big`], with places of the diagonal at 0, over a kernel whose numbers
/// are about as large as the floor.
pub fn draw_big_tuned(seed: u64, n: usize, entry: Entry, shrinking: bool) -> Problem {
    let g = &mut Random::new(seed ^ OWN);
    let mut p = draw_big(seed, n, entry, shrinking);
    for k in 0..n {
        if g.coin() {
            p.set_pattern(k * n + k, 0);
        }
    }
    p.floor = sound(floor(g));
    let floor = p.floor;
    approach(g, &mut p, floor);
    p
}

pub(super) fn floor(g: &mut Random) -> f64 {
    match g.below(16) {
        0..=9 => {
            let edge = g.pick(&FLOORS);
            next_door(g, edge)
        }
        10..=12 => f64::from_bits(1 + g.below(1.0_f64.to_bits())),
        13..=14 => g.unit(),
        _ => bad(g, &BAD_FLOORS),
    }
}

/// The floor, or 1 where it is refused.
pub(super) fn sound(floor: f64) -> f64 {
    if floor > 0.0 && floor <= 1.0 {
        floor
    } else {
        1.0
    }
}

/// Many passes over a matrix that has flat places, or bends the other way:
/// samples that stand there twice, a low diagonal, numbers that no kernel gives.
fn bent(g: &mut Random) -> Problem {
    let n = 3 + g.place(10);
    let kind = g.pick(&[
        Kind::Whole(3),
        Kind::Halves,
        Kind::Reals,
        Kind::Reals,
        Kind::Mixed,
        Kind::Patterns,
    ]);
    let matrix = match g.below(6) {
        0 => repeated(g, n, kind),
        1 => symmetric(g, n, kind),
        2 => (0..n * n).map(|_| kind.number(g)).collect(),
        _ => {
            let mut m = if g.coin() {
                gram(g, n, kind)
            } else {
                ratio(g, n)
            };
            for k in 0..n {
                m[k * n + k] *= g.pick(&[1.0, 0.5, 0.0, 0.0, -1.0]);
            }
            m
        }
    };
    let entry = g.pick(&Entry::DRAWN);
    let mut p = restless_over(g, entry, n, &matrix);
    p.shrinking = !g.one_in(3);
    if matches!(entry, Entry::Nu | Entry::OneClass) && g.coin() {
        p.nu = 0.2 + 0.6 * g.unit();
    }
    p
}

/// Scales the kernel so that its curvatures are about as large as the floor.
pub(super) fn approach(g: &mut Random, p: &mut Problem, floor: f64) {
    scale_kernel(p, floor * power(g.from_to(-6, 2)));
}

/// Curvatures of 0 or just below, and a step by the floor that is about as long
/// as the box is wide.
fn flat(g: &mut Random, floor: f64) -> Problem {
    let n = 2 + g.place(5);
    let same = match g.below(3) {
        0 => Kind::any(g).number(g),
        1 => floor,
        _ => 0.0,
    };
    let dent = g.pick(&[0.0, 0.0, floor / 2.0]);
    let matrix = square(n, |a, b| if a == b { same - dent } else { same });
    let entry = g.pick(&[Entry::General, Entry::General, Entry::C]);
    let mut p = Problem::over(entry, n, &matrix);
    p.shrinking = g.coin();
    p.labels = labels(g, n, true);
    if entry == Entry::C {
        // between different labels a step is 2 divided by the floor
        p.cpos = within_limit((0.5 + 3.0 * g.unit()) / floor);
        p.cneg = if g.coin() { p.cpos } else { p.cpos / 2.0 };
        return p;
    }
    p.nu_rule = g.one_in(3);
    p.ceilings = (0..n).map(|_| g.pick(&[0.5, 1.0, 3.0, 1000.0])).collect();
    p.alphas = alphas(g, &p.ceilings);
    for c in &p.ceilings {
        let pull = floor * c * g.signed();
        p.linear.push(g.pick(&[pull, pull, pull, 0.0, -0.0]));
    }
    p
}

/// Sixteen samples or more, with huge entries or some of every size.
fn wide(g: &mut Random) -> Problem {
    let n = 16 + g.place(9);
    let kind = g.pick(&[Kind::Huge, Kind::Huge, Kind::Patterns, Kind::Mixed]);
    let matrix: Vec<f64> = if g.coin() {
        symmetric(g, n, kind)
    } else {
        (0..n * n).map(|_| kind.number(g)).collect()
    };
    plain_over(g, n, &matrix)
}
