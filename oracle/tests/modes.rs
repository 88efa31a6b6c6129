//! The travelling mode: a sample's ceiling moves with it, and nothing else is
//! other than in the crate's.

use oracle::run::canonical;
use oracle::{draw_modes, solve, Accepted, Entry, Problem};

fn in_mode(p: &Problem, travelling: bool) -> Option<Accepted> {
    let mut p = p.clone();
    p.travelling = travelling;
    p.budget = p.budget.min(5000);
    solve(&p, true).accepted().cloned()
}

/// Every accepted one of these draws, in both modes.
fn each(test: impl Fn(&Problem, &Accepted, &Accepted) -> bool) -> usize {
    let drawn = (0..20_000).map(draw_modes);
    drawn
        .filter(|p| match (in_mode(p, false), in_mode(p, true)) {
            (Some(theirs), Some(ours)) => test(p, &theirs, &ours),
            _ => false,
        })
        .count()
}

fn own_ceilings(p: &Problem) -> Vec<f64> {
    match p.entry {
        Entry::General => p.ceilings.clone(),
        Entry::C => (p.labels.iter())
            .map(|y| if *y == 1 { p.cpos } else { p.cneg })
            .collect(),
        _ => vec![1.0; p.n as usize],
    }
}

/// At the end each position has the ceiling of the sample that stands there. In
/// the crate's mode some don't.
#[test]
fn a_ceiling_travels() {
    let parted = each(|p, theirs, ours| {
        let own = own_ceilings(p);
        let at = |a: &Accepted| -> Vec<f64> { a.order.iter().map(|s| own[*s]).collect() };
        assert_eq!(ours.ceilings, at(ours));
        theirs.ceilings != at(theirs)
    });
    assert!(parted > 100, "{parted}");
}

/// A step clips by the ceilings of the two samples in travelling, by those of
/// their places in the crate's mode. Up to the first step where the two are
/// other numbers, the runs are the same.
#[test]
fn the_modes_part_at_a_step_with_other_ceilings() {
    let parted = each(|_, theirs, ours| {
        let both = theirs.trace.iter().zip(&ours.trace);
        for (a, b) in both {
            if a.given.ceilings != b.given.ceilings {
                return true;
            }
            let left = |s: &oracle::run::Step| [s.weight_i, s.weight_j].map(canonical);
            assert_eq!((a.i, a.j, left(a)), (b.i, b.j, left(b)));
        }
        let words = |a: &Accepted| -> Vec<u64> { a.home.iter().map(|x| canonical(*x)).collect() };
        assert_eq!(words(theirs), words(ours));
        false
    });
    assert!(parted > 100, "{parted}");
}

/// In travelling a weight leaves its box by less than the next f64 above the
/// problem's largest ceiling is away: only rounding breaks it.
#[test]
fn only_rounding_breaks_the_box() {
    let outside = each(|p, _, ours| {
        let largest = own_ceilings(p).into_iter().fold(0.0, f64::max);
        let unit = f64::from_bits(largest.to_bits() + 1) - largest;
        let both = ours.weights.iter().zip(&ours.ceilings);
        let most = both.map(|(w, c)| (w - c).max(-w)).fold(0.0, f64::max);
        assert!(most < unit, "{most} {p:?}");
        most > 0.0
    });
    assert!(outside > 50, "{outside}");
}

/// Below 0, too, where ceilings are far apart.
#[test]
fn a_weight_below_0() {
    let p = draw_modes(5960);
    assert!(in_mode(&p, true)
        .unwrap()
        .weights
        .contains(&-1.2648561459581633));
}
