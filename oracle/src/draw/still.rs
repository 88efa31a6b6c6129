//! Problems with shrinking off of the three entries that then train without an
//! order table. Most have 16 samples and more: that trainer goes by sixteens and
//! eights, and what is left over.

use super::*;

/// Bits of a seed that are turned, so that a problem has nothing to do with the
/// one that `draw` gives.
const OWN: u64 = 0x5711_0115_c1a0_7e57;

/// The problem of a seed.
pub fn draw_still(seed: u64) -> Problem {
    let g = &mut Random::new(seed ^ OWN);
    let floor = if g.coin() {
        tuned::floor(g)
    } else {
        USUAL_FLOOR
    };
    let n = span(g);
    let mut p = match g.below(16) {
        0..=5 => storm(g, n),
        6..=9 => ties(g, n),
        10..=11 => afar(g, n),
        12 => low(g, n, floor),
        13 => broad(g, n),
        14 => small(g),
        _ => level(g, n),
    };
    p.shrinking = false;
    p.floor = floor;
    budget(g, &mut p);
    spare_room(g, &mut p);
    if g.one_in(12) {
        spoil(g, &mut p);
    }
    p
}

/// As [`draw_big`] with shrinking off, or of the family with huge entries.
pub fn draw_big_still(seed: u64, n: usize) -> Problem {
    let g = &mut Random::new(seed ^ OWN);
    if g.coin() {
        let entry = g.pick(&Entry::STILL);
        return draw_big(seed, n, entry, false);
    }
    let mut p = storm(g, n);
    p.budget = 2000;
    p
}

/// Whole sixteens and eights, one more and one less, or any number up to 128.
fn span(g: &mut Random) -> usize {
    match g.below(24) {
        0..=11 => g.pick(&[16, 16, 16, 17, 18, 20]),
        12..=16 => g.pick(&[23, 24, 25, 31, 32, 32, 33]),
        17..=19 => g.pick(&[39, 40, 41, 47, 48, 49]),
        20..=21 => g.pick(&[63, 64, 64, 65]),
        22 => g.pick(&[80, 96, 100, 112, 127, 128]),
        _ => 16 + g.place(113),
    }
}

/// Huge entries of both signs among ordinary ones, under ceilings up to 2^1000.
/// Under the C rule steps are long, so products become infinite and the sum of
/// two of them NaN, at some places or at all.
fn storm(g: &mut Random, n: usize) -> Problem {
    let entry = g.pick(&[
        Entry::C,
        Entry::C,
        Entry::C,
        Entry::C,
        Entry::Nu,
        Entry::OneClass,
    ]);
    let calm = g.pick(&[
        Kind::Whole(1),
        Kind::Whole(3),
        Kind::Reals,
        Kind::Halves,
        Kind::Zeros,
    ]);
    let n2 = (n * n) as u64;
    let every = g.pick(&[1, 2, 8, n as u64 / 4, n as u64, n2 / 8, n2 / 2]);
    let draws: Vec<f64> = (0..n * n)
        .map(|_| match g.one_in(every) {
            true => Kind::Huge.number(g),
            false => calm.number(g),
        })
        .collect();
    let mut matrix = match g.one_in(3) {
        true => square(n, |a, b| draws[a.min(b) * n + a.max(b)]),
        false => draws,
    };
    // where the diagonal is low, curvatures aren't above 0
    let diagonal = g.below(4);
    for k in 0..n {
        match diagonal {
            0 => matrix[k * n + k] = 0.0,
            1 => matrix[k * n + k] = calm.number(g),
            2 => matrix[k * n + k] = calm.number(g).abs() + 1.0,
            _ => {}
        }
    }
    let mut p = Problem::over(entry, n, &matrix);
    p.eps = eps(g);
    fill(g, &mut p, n, false);
    if entry == Entry::C {
        for ceiling in [&mut p.cpos, &mut p.cneg] {
            let high = [LIMIT, LIMIT, power(990), power(500), 1e20, 1e9];
            if !g.one_in(8) {
                *ceiling = g.pick(&high);
            }
        }
    }
    p
}

/// Small whole numbers and samples that stand there twice, so that many places
/// are equal; now and then some miss each other by a unit in the last place.
fn ties(g: &mut Random, n: usize) -> Problem {
    let entry = g.pick(&Entry::STILL);
    let kind = g.pick(&[Kind::Whole(1), Kind::Whole(2), Kind::Whole(3), Kind::Halves]);
    let mut matrix = match g.below(8) {
        0..=3 => repeated(g, n, kind),
        4..=5 => gram(g, n, kind),
        6 => symmetric(g, n, kind),
        _ => diagonal(g, n, Kind::Whole(2)),
    };
    if g.one_in(3) {
        for x in &mut matrix {
            *x = nudged(g, *x);
        }
    }
    let mut p = Problem::over(entry, n, &matrix);
    p.eps = g.pick(&[0.0, 0.0, 1e-12, 1e-3, 0.5, 1.0]);
    fill(g, &mut p, n, true);
    if entry == Entry::C && g.coin() {
        p.cpos = g.pick(&[1.0, 2.0, 0.5, 8.0]);
        p.cneg = g.pick(&[p.cpos, p.cpos, 1.0, 4.0]);
    }
    p
}

/// As many points of one label as of the other, each for several samples. One
/// weight of each point rises to the ceiling, and then every gradient is 0: zeros
/// of different sign meet in rho.
fn level(g: &mut Random, n: usize) -> Problem {
    let scale = g.pick(&[0.5, 1.0, 2.0]);
    let points = 1 + g.place(n / 4);
    let labels: Vec<u8> = match g.below(3) {
        0 => (0..n).map(|k| u8::from(k % 2 == 0)).collect(),
        1 => (0..n).map(|k| u8::from(k < n / 2)).collect(),
        _ => (0..n).map(|k| u8::from(k >= n / 2)).collect(),
    };
    let mut seen = [0; 2];
    let point = |y: &u8| {
        seen[usize::from(*y)] += 1;
        (*y, seen[usize::from(*y)] % points)
    };
    let which: Vec<(u8, usize)> = labels.iter().map(point).collect();
    let matrix = square(n, |a, b| if which[a] == which[b] { scale } else { 0.0 });
    let mut p = Problem::over(Entry::C, n, &matrix);
    p.eps = g.pick(&[0.0, 1e-12, 1e-3]);
    p.labels = labels;
    p.cpos = 1.0 / scale;
    p.cneg = p.cpos;
    p
}

/// A lively run at a scale where the square of a gap vanishes or is infinite.
fn afar(g: &mut Random, n: usize) -> Problem {
    let entry = g.pick(&Entry::STILL);
    let kind = g.pick(&[Kind::Whole(3), Kind::Halves, Kind::Reals]);
    let matrix = lively_matrix(g, n, kind);
    let mut p = Problem::over(entry, n, &matrix);
    p.eps = g.pick(&[0.0, 0.0, 1e-9, 1e-3]);
    fill(g, &mut p, n, true);
    let exponent = match g.below(3) {
        0 => g.from_to(-1022, 990),
        1 => g.from_to(-545, -505),
        _ => g.from_to(495, 520),
    };
    scale_kernel(&mut p, power(exponent));
    p
}

/// Low diagonals: curvatures of 0 and below, about as large as the floor.
fn low(g: &mut Random, n: usize, floor: f64) -> Problem {
    let entry = g.pick(&Entry::STILL);
    let mut matrix = match g.coin() {
        true => gram(g, n, Kind::Reals),
        false => ratio(g, n),
    };
    for k in 0..n {
        matrix[k * n + k] *= g.pick(&[1.0, 0.5, 0.0, 0.0, -1.0]);
    }
    let mut p = Problem::over(entry, n, &matrix);
    p.eps = g.pick(&[0.0, 1e-9, 1e-3]);
    fill(g, &mut p, n, true);
    tuned::approach(g, &mut p, tuned::sound(floor));
    p
}

/// Everything from wide lists of kinds.
fn broad(g: &mut Random, n: usize) -> Problem {
    let kind = Kind::any(g);
    let matrix = matrix(g, n, kind);
    let mut p = Problem::over(g.pick(&Entry::STILL), n, &matrix);
    p.eps = eps(g);
    fill(g, &mut p, n, false);
    p
}

/// Of the five families, few samples among them.
fn small(g: &mut Random) -> Problem {
    loop {
        let p = family(g);
        if Entry::STILL.contains(&p.entry) {
            return p;
        }
    }
}
