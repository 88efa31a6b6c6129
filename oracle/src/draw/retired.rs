//! Problems of the retired entry. Half of them are general ones of which some
//! samples are retired; the other half are general ones with retired samples
//! put in between, so that what is left is all that its family meant it to be.

use super::*;

/// Bits of a seed that are turned, so that a problem has nothing to do with the
/// one that `draw` gives.
const OWN: u64 = 0x5e1f_0115_c1a0_7e57;

/// The problem of the retired entry of a seed.
pub fn draw_retired(seed: u64) -> Problem {
    let g = &mut Random::new(seed ^ OWN);
    let mut p = general(g);
    let more = g.coin();
    if more {
        p = among(g, &p);
    } else {
        p.retired = bytes(g, p.n as usize);
    }
    p.entry = Entry::Retired;
    p.shrinking = false;
    match g.below(4) {
        0 => {
            raise(&mut p);
            redraw(g, &mut p, Kind::Huge);
        }
        // they keep what they had before they were retired
        1..=2 if !more => {}
        _ => redraw_retired(g, &mut p),
    }
    finish(g, &mut p);
    if g.one_in(40) {
        // the last of the refusals side by side
        for number in [10, 12, 13] {
            if g.coin() {
                spoil_by(g, &mut p, number);
            }
        }
    }
    p
}

fn general(g: &mut Random) -> Problem {
    loop {
        let p = family(g);
        if p.entry == Entry::General {
            return p;
        }
    }
}

/// Nobody is retired, or everybody, all but one, one alone, or some.
fn bytes(g: &mut Random, n: usize) -> Vec<u8> {
    let one = g.place(n);
    match g.below(12) {
        0..=1 => vec![0; n],
        2 => vec![1; n],
        3 => (0..n).map(|k| u8::from(k != one)).collect(),
        4..=5 => (0..n).map(|k| u8::from(k == one)).collect(),
        6..=8 => (0..n).map(|_| u8::from(g.coin())).collect(),
        _ => (0..n).map(|_| u8::from(g.one_in(4))).collect(),
    }
}

/// The samples of p with one to six retired ones in between, which have zeros
/// and a ceiling of 1 as yet.
fn among(g: &mut Random, p: &Problem) -> Problem {
    let old = p.n as usize;
    let n = old + 1 + g.place(6);
    let mut places: Vec<usize> = (0..n).collect();
    while places.len() > old {
        places.remove(g.place(places.len()));
    }
    let mut wide = Problem::over(p.entry, n, &vec![0.0; n * n]);
    wide.retired = vec![1; n];
    wide.labels = vec![0; n];
    wide.ceilings = vec![1.0; n];
    wide.alphas = vec![0.0; n];
    wide.linear = vec![0.0; n];
    for (k, at) in places.iter().enumerate() {
        wide.retired[*at] = 0;
        wide.labels[*at] = p.labels[k];
        wide.ceilings[*at] = p.ceilings[k];
        wide.alphas[*at] = p.alphas[k];
        wide.linear[*at] = p.linear[k];
    }
    for (k, pattern) in p.patterns().enumerate() {
        wide.set_pattern(places[k / old] * n + places[k % old], pattern);
    }
    (wide.nu_rule, wide.eps, wide.floor) = (p.nu_rule, p.eps, p.floor);
    wide
}

/// The same with retired samples among its own, or put in between.
pub(super) fn retire(g: &mut Random, mut p: Problem) -> Problem {
    if g.coin() {
        p = among(g, &p);
    } else {
        p.retired = bytes(g, p.n as usize);
    }
    p.entry = Entry::Retired;
    p.shrinking = false;
    if g.coin() {
        redraw_retired(g, &mut p);
    }
    p
}

/// The same run at 2^40 times the scale, where that stays within the limits:
/// weights that an entry of 2^1000 makes infinite.
fn raise(p: &mut Problem) {
    let scale = power(40);
    let all = p.ceilings.iter().chain(&p.linear).chain([&p.eps]);
    if all.into_iter().any(|x| x.abs() > LIMIT / scale) {
        return;
    }
    let lists = [&mut p.ceilings, &mut p.alphas, &mut p.linear];
    for x in lists.into_iter().flatten().chain([&mut p.eps]) {
        *x *= scale;
    }
}

/// Lends other labels, ceilings, start alphas, linear terms and kernel rows
/// and columns for the retired samples: anything that is accepted.
pub fn redraw_retired(g: &mut Random, p: &mut Problem) {
    let kind = match g.below(4) {
        0 => Kind::Zeros,
        1 => Kind::Huge,
        _ => Kind::any(g),
    };
    redraw(g, p, kind);
}

pub(super) fn redraw(g: &mut Random, p: &mut Problem, kind: Kind) {
    let n = p.n as usize;
    let ends = matches!(kind, Kind::Huge) && g.coin();
    let labels = labels(g, n, false);
    let ceilings = if ends {
        vec![LIMIT; n]
    } else {
        ceilings(g, &labels, false)
    };
    let alphas = alphas(g, &ceilings);
    let linear = linear(g, n, false);
    for k in (0..n).filter(|k| p.retired[*k] == 1) {
        p.labels[k] = labels[k];
        p.ceilings[k] = ceilings[k];
        p.alphas[k] = alphas[k];
        p.linear[k] = if ends {
            g.either_sign(f64::MAX)
        } else {
            linear[k]
        };
    }
    for k in 0..n * n {
        if p.retired[k / n] == 1 || p.retired[k % n] == 1 {
            let x = if ends {
                g.either_sign(LIMIT)
            } else {
                kind.number(g)
            };
            p.set_pattern(k, x.to_bits());
        }
    }
}
