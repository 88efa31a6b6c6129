//! The numbers of one step by itself, over all floats. Most of them no run
//! reaches.

use super::*;
use crate::run::Given;

/// Bits of a seed that are turned, so that a step has nothing to do with the
/// problem that `draw` gives.
const OWN: u64 = 0x57e9_0f7a_a9a1_2b0d;

/// The step of a seed.
pub fn draw_step(seed: u64) -> Given {
    let g = &mut Random::new(seed ^ OWN);
    let mut given = Given {
        agree: g.coin(),
        ..Given::default()
    };
    let kind = g.below(8);
    if kind == 0 {
        for x in places(&mut given) {
            *x = number(g);
        }
        return given;
    }
    given.ceilings = both(g, |g| ceiling(g, false));
    weigh(g, &mut given);
    bend(g, &mut given);
    if kind == 1 {
        given.gradients = both(g, |g| 3.0 * g.signed());
    } else {
        aim(g, &mut given);
    }
    if g.one_in(3) {
        for _ in 0..1 + g.below(2) {
            let k = g.place(9);
            *places(&mut given).nth(k).unwrap() = number(g);
        }
    }
    given
}

/// All nine of them.
fn places(given: &mut Given) -> impl Iterator<Item = &mut f64> {
    let pairs = [
        &mut given.weights,
        &mut given.ceilings,
        &mut given.gradients,
        &mut given.diagonals,
    ];
    pairs.into_iter().flatten().chain([&mut given.entry])
}

/// One number twice, or two.
fn both(g: &mut Random, number: impl Fn(&mut Random) -> f64) -> [f64; 2] {
    let x = number(g);
    if g.coin() {
        [x, x]
    } else {
        [x, number(g)]
    }
}

/// Any float, the edges most of all.
fn number(g: &mut Random) -> f64 {
    let x = match g.below(12) {
        0..=1 => 0.0,
        2 => g.pick(&[TINY, 1e-300, f64::MIN_POSITIVE]),
        3 => next_door(g, USUAL_FLOOR),
        4..=5 => next_door(g, 1.0),
        6 => g.pick(&[LIMIT, PAST_LIMIT, f64::MAX]),
        7 => f64::INFINITY,
        8 => f64::from_bits(g.pick(&NANS)),
        9 => f64::from_bits(g.word()),
        _ => Kind::any(g).number(g),
    };
    g.either_sign(x)
}

/// Weights at an end of their range, next door, within or outside; the second
/// now and then so that sum or difference meets what it is compared with.
fn weigh(g: &mut Random, given: &mut Given) {
    let [a, b] = given.ceilings;
    let first = weight(g, a);
    let second = match (g.below(6), given.agree) {
        (0, true) => a - first,
        (1, true) => b - first,
        (0, false) => first,
        (1, false) => first - (a - b),
        _ => weight(g, b),
    };
    given.weights = [first, second];
}

fn weight(g: &mut Random, ceiling: f64) -> f64 {
    match g.below(12) {
        0..=1 => 0.0,
        2 => -0.0,
        3..=4 => ceiling,
        5 => next_door(g, ceiling),
        6 => ceiling / 2.0,
        7 => -ceiling * g.unit(),
        8 => ceiling * (1.0 + g.unit()),
        _ => ceiling * g.unit(),
    }
}

/// Diagonals and entry: a curvature of 0, of a power of two, or any.
fn bend(g: &mut Random, given: &mut Given) {
    let scale = g.pick(&[1.0, 1.0, 0.5, 2.0, 1024.0]);
    let sign = if given.agree { 1.0 } else { -1.0 };
    (given.diagonals, given.entry) = match g.below(8) {
        0..=2 => ([scale; 2], 0.0),
        3 => ([scale; 2], g.pick(&[scale, -scale])),
        4 => (
            [scale, 4.0 * scale],
            sign * g.pick(&[2.0, 2.5, 3.0]) * scale,
        ),
        5 => (both(g, |g| g.either_sign(0.0)), g.either_sign(0.0)),
        6 => (both(g, |g| g.unit()), g.signed()),
        _ => (both(g, |g| Kind::any(g).number(g)), g.signed()),
    };
}

/// Gradients whose step brings one weight to an end of its range, or nearly
/// so: the way to it is one unit in the last place longer or shorter.
fn aim(g: &mut Random, given: &mut Given) {
    let k = g.place(2);
    let (weight, ceiling) = (given.weights[k], given.ceilings[k]);
    let end = g.pick(&[0.0, ceiling]);
    let way = next_door(g, end - weight);
    let curvature = match given.curvature() {
        q if q <= 0.0 => USUAL_FLOOR,
        q => q,
    };
    // labels that agree: the first weight falls by what the second gains
    let pull = if given.agree && k == 0 {
        -way * curvature
    } else {
        way * curvature
    };
    let share = g.pick(&[0.0, 0.0, 1.0, 1.0, 0.5, -1.0]) * pull;
    given.gradients = if given.agree {
        [share, share - pull]
    } else {
        [-share, share - pull]
    };
}
