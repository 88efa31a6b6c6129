//! Problems for both modes, drawn in the travelling one: most have ceilings that
//! differ and samples that move.

use super::*;

/// Bits of a seed that are turned, so that a problem has nothing to do with the
/// one that `draw` gives.
const OWN: u64 = 0x7ea0_e111_c6e1_1146;

/// The problem of a seed, of an entry without retired samples.
pub fn draw_modes(seed: u64) -> Problem {
    let g = &mut Random::new(seed ^ OWN);
    let mut p = if g.one_in(32) { far(g) } else { near(g) };
    p.shrinking = !g.one_in(8);
    p.travelling = true;
    if g.one_in(3) {
        p.floor = tuned::floor(g);
    }
    budget(g, &mut p);
    spare_room(g, &mut p);
    if g.one_in(10) {
        spoil(g, &mut p);
    }
    p
}

/// Mostly many passes, and ceilings that differ by a few times.
fn near(g: &mut Random) -> Problem {
    let mut p = match g.below(16) {
        0..=11 => busy(g),
        12 => tails(g),
        13 => brinks(g),
        14 => wild(g),
        _ => family(g),
    };
    match g.below(8) {
        0 => even(g, &mut p),
        1 => {}
        _ => uneven(g, &mut p),
    }
    p
}

/// As [`draw_big`] of the general or the C entry, with ceilings that differ.
pub fn draw_big_modes(seed: u64, n: usize) -> Problem {
    let g = &mut Random::new(seed ^ OWN);
    let entry = g.pick(&[Entry::General, Entry::C]);
    let mut p = draw_big(seed, n, entry, true);
    p.travelling = true;
    uneven(g, &mut p);
    p
}

/// Many passes: mostly 2 to 24 samples, one in forty up to 128.
fn busy(g: &mut Random) -> Problem {
    let n = match g.below(40) {
        0 => g.from_to(25, 128),
        1..=8 => g.from_to(16, 24),
        9..=24 => g.from_to(8, 15),
        _ => g.from_to(2, 7),
    } as usize;
    let kind = g.pick(&[Kind::Whole(3), Kind::Whole(3), Kind::Halves, Kind::Reals]);
    let matrix = lively_matrix(g, n, kind);
    let entries = [
        Entry::General,
        Entry::General,
        Entry::General,
        Entry::C,
        Entry::C,
        Entry::C,
        Entry::Nu,
        Entry::OneClass,
    ];
    let entry = g.pick(&entries);
    let mut p = restless_over(g, entry, n, &matrix);
    if entry == Entry::C {
        // as low as a sorter of captions has them
        p.cpos = g.pick(&[0.1, 0.5, 1.0, 2.0, 10.0, 100.0]);
    }
    p
}

/// A ceiling of 2^53 beside low ones: a step between the two rounds to whole
/// numbers, and may leave the low weight above its ceiling.
fn far(g: &mut Random) -> Problem {
    let n = 2 + g.place(4);
    let bent: Vec<bool> = (0..n).map(|_| g.coin()).collect();
    let matrix = square(n, |a, b| f64::from(u8::from(a == b && bent[a])));
    let mut p = Problem::over(Entry::General, n, &matrix);
    p.labels = labels(g, n, true);
    p.nu_rule = g.one_in(4);
    let top = power(53);
    for k in 0..n {
        let low = 0.5 + 0.5 * g.unit();
        let (ceiling, alpha) = match k % 2 == 0 {
            true => (low, low * g.pick(&[0.0, 0.5])),
            false => (top, top - g.pick(&[0.0, 1.0, 1.0, 2.0])),
        };
        p.ceilings.push(ceiling);
        p.alphas.push(alpha);
        // about the gradient that the weight alone makes, the other way
        let pull = if bent[k] { alpha } else { 0.0 };
        p.linear.push(-pull - g.pick(&[0.0, 1.0, 1.0, 2.0]));
    }
    p
}

/// A ceiling a few times another. Far apart, the low ones are all that binds.
fn step(g: &mut Random) -> f64 {
    g.pick(&[0.1, 0.2, 0.5, 0.75, PAST_ONE, 1.5, 2.0, 5.0, 10.0])
}

/// Ceilings by class, by sample, or with one that is another. A start alpha keeps
/// its share of its ceiling.
fn uneven(g: &mut Random, p: &mut Problem) {
    match p.entry {
        Entry::C => p.cneg = within_limit(p.cpos * step(g)),
        Entry::General => {
            let old = p.ceilings.clone();
            let classes = [1.0, step(g)];
            let apart = g.place(old.len());
            let kind = g.below(4);
            for k in 0..old.len() {
                let times = match kind {
                    0..=1 => classes[usize::from(p.labels[k] == 1)],
                    2 => step(g),
                    _ => classes[usize::from(k == apart)],
                };
                set_ceiling(p, k, within_limit(old[0] * times));
            }
        }
        _ => {}
    }
}

/// One common ceiling.
fn even(g: &mut Random, p: &mut Problem) {
    if p.entry == Entry::C {
        p.cneg = p.cpos;
        return;
    }
    let common = if p.ceilings.is_empty() || g.coin() {
        1.0
    } else {
        p.ceilings[0]
    };
    for k in 0..p.ceilings.len() {
        set_ceiling(p, k, common);
    }
}

/// The start alpha keeps its share of the ceiling.
fn set_ceiling(p: &mut Problem, k: usize, ceiling: f64) {
    // a product with the least f64 can be 0, which is refused
    let ceiling = ceiling.max(TINY);
    let share = p.alphas[k] / p.ceilings[k];
    p.ceilings[k] = ceiling;
    p.alphas[k] = (share * ceiling).min(ceiling);
}
