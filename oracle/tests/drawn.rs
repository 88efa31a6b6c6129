//! Drawing: the same from the same seed, over every kind, and what must hold
//! of every answer.

use oracle::draw::NANS;
use oracle::judge::faults;
use oracle::marks::{is_own_inverse, Owed, Tally};
use oracle::problem::MOST_PASSES;
use oracle::record::{record, Told};
use oracle::run::canonical;
use oracle::{
    draw, draw_faint, draw_modes, draw_retired, draw_still, draw_tuned, judge, solve, Accepted,
    Entry, Outcome, Problem,
};

type Draw = fn(u64) -> Problem;
const ALL: [Draw; 6] = [
    draw,
    draw_retired,
    draw_faint,
    draw_tuned,
    draw_still,
    draw_modes,
];

const DRAWS: u64 = 100_000;

#[test]
fn a_seed_draws_the_same_problem_and_answer() {
    for seed in (0..3000).chain(u64::MAX - 100..=u64::MAX) {
        for draw in ALL {
            let twice = [0, 1].map(|_| {
                let p = draw(seed);
                let told = Told::of(&solve(&p, true));
                (p.floor.to_bits(), record(&p, &told))
            });
            assert_eq!(twice[0], twice[1], "seed {seed}");
        }
    }
}

#[test]
fn draws_reach_every_kind() {
    let mut tally = Tally::owing(&[Owed::Some]);
    for seed in 0..DRAWS {
        let p = draw(seed);
        tally.add(&p, &solve(&p, false));
    }
    let wrong = tally.wrong();
    assert!(wrong.is_empty(), "{wrong:?}\n{}", tally.lines().join("\n"));
    // rare things are not left to luck
    for (name, per_thousand) in [
        ("accepted: shrunk", 50),
        ("accepted: order not its own inverse", 5),
        ("accepted: readings differ", 5),
        ("refusal 11, general", 5),
        ("refusal 11, C", 2),
    ] {
        let count = tally.count(name);
        assert!(
            count >= per_thousand * DRAWS / 1000,
            "{count} of {DRAWS}: {name}"
        );
    }
}

/// Every place at the support limit and every wrong rule of the count.
#[test]
fn faint_draws_reach_every_kind() {
    let mut tally = Tally::owing(&[Owed::Faint]);
    for seed in 0..20_000 {
        let p = draw_faint(seed);
        assert_eq!(judge(&p), None, "seed {seed}");
        tally.add(&p, &solve(&p, false));
    }
    let wrong = tally.wrong();
    assert!(wrong.is_empty(), "{wrong:?}\n{}", tally.lines().join("\n"));
}

/// Every floor, every refusal of one and every place that asks for it.
#[test]
fn tuned_draws_reach_every_kind() {
    let mut tally = Tally::owing(&[Owed::Tuned]);
    for seed in 0..20_000 {
        let p = draw_tuned(seed);
        tally.add(&p, &solve(&p, false));
    }
    let wrong = tally.wrong();
    assert!(wrong.is_empty(), "{wrong:?}\n{}", tally.lines().join("\n"));
    // the floor is what makes the answer
    let told = tally.count("floor: another answer than at 1e-10");
    assert!(told > 3000, "{told}");
}

/// Shrinking off, of three entries; numbers, infinities and NaN among the
/// gradients, and equals.
#[test]
fn still_draws_reach_every_kind() {
    let mut tally = Tally::owing(&[Owed::Still]);
    for seed in 0..10_000 {
        let p = draw_still(seed);
        assert!(!p.shrinking && Entry::STILL.contains(&p.entry));
        tally.add(&p, &solve(&p, false));
    }
    let wrong = tally.wrong();
    assert!(wrong.is_empty(), "{wrong:?}\n{}", tally.lines().join("\n"));
    // rare things are not left to luck
    for (name, least) in [
        ("a first eight places behind a NaN", 100),
        ("a first that has an equal", 500),
    ] {
        let count = tally.count(&format!("shrinking off: {name}"));
        assert!(count >= least, "{count}: {name}");
    }
}

/// Travelling, of four entries: moves, ceilings that differ, answers that part.
#[test]
fn mode_draws_reach_every_kind() {
    let mut tally = Tally::owing(&[Owed::Modes]);
    for seed in 0..20_000 {
        let p = draw_modes(seed);
        assert!(p.travelling && Entry::DRAWN.contains(&p.entry));
        tally.add(&p, &solve(&p, false));
    }
    let wrong = tally.wrong();
    assert!(wrong.is_empty(), "{wrong:?}\n{}", tally.lines().join("\n"));
    let name = "travelling: another answer than in the crate's mode";
    let count = tally.count(name);
    assert!(count >= 200, "{count}: {name}");
}

/// The other draws have the usual floor, and the crate's mode.
#[test]
fn a_floor_or_a_mode_is_drawn_for_nothing_else() {
    for p in (0..5000).flat_map(|seed| [draw, draw_retired, draw_faint].map(|draw| draw(seed))) {
        assert_eq!((p.floor, p.travelling), (1e-10, false));
    }
}

fn same(a: f64, b: f64) -> bool {
    canonical(a) == canonical(b)
}

#[test]
fn every_answer_agrees_with_itself() {
    for seed in 1_000_000..1_020_000 {
        for draw in ALL {
            agrees_with_itself(&draw(seed), seed);
        }
    }
}

fn agrees_with_itself(p: &Problem, seed: u64) {
    let answer = solve(p, true);
    match &answer.outcome {
        Outcome::Fault(message) => panic!("seed {seed}: {message}"),
        Outcome::Refused(r) if r.number == 11 => {
            assert!(p.shrinking, "seed {seed}");
            assert_eq!((r.index, judge(p)), (0, None), "seed {seed}");
        }
        Outcome::Refused(r) => {
            assert_eq!(Some(*r), judge(p), "seed {seed}");
            assert_eq!(faults(p)[0], r.number, "seed {seed}");
        }
        Outcome::Accepted(a) => {
            assert_eq!(judge(p), None, "seed {seed}");
            agrees(p, a, seed);
            if !p.shrinking {
                assert_eq!(answer.events.walks, 0, "seed {seed}");
            }
        }
    }
}

fn agrees(p: &Problem, a: &Accepted, seed: u64) {
    let n = p.n as usize;
    let mut seen = vec![false; n];
    for s in &a.order {
        assert!(!seen[*s], "seed {seed}: a sample twice in the order");
        seen[*s] = true;
    }
    assert_eq!(a.order.len(), n);

    // both readings from order and weights
    let finish = |sample: usize, w: f64| match p.entry {
        Entry::General | Entry::OneClass | Entry::Retired => w,
        Entry::C if p.labels[sample] == 1 => w,
        Entry::C => -w,
        Entry::Nu => (if p.labels[sample] == 1 { w } else { -w }) / a.r.unwrap(),
    };
    for k in 0..n {
        let crate_k = finish(k, a.weights[a.order[k]]);
        assert!(same(a.crate_reading[k], crate_k), "seed {seed}");
        let s = a.order[k];
        assert!(same(a.home[s], finish(s, a.weights[k])), "seed {seed}");
    }
    if is_own_inverse(&a.order) {
        for k in 0..n {
            assert!(same(a.crate_reading[k], a.home[k]), "seed {seed}");
        }
    }
    if !p.shrinking {
        assert!(a.order.iter().enumerate().all(|(k, s)| k == *s));
    }

    let nu_rule = p.entry == Entry::Nu || p.nu_rule;
    assert_eq!(a.r.is_some(), nu_rule, "seed {seed}");
    assert_eq!(a.trace.len() as u64, a.iterations, "seed {seed}");
    assert!(a.iterations <= p.budget, "seed {seed}");
    let ran_out = a.reason == oracle::Reason::Iterations;
    assert_eq!(ran_out, a.iterations == p.budget, "seed {seed}");
    assert_eq!(a.support, support(&a.home), "seed {seed}");
    assert_eq!(a.support, support(&a.crate_reading), "seed {seed}");

    // what the passes left is what stands at the end, where nothing moved
    if !p.shrinking {
        let mut last = vec![None; n];
        for s in &a.trace {
            assert_ne!(s.i, s.j, "seed {seed}");
            last[s.i] = Some(s.weight_i);
            last[s.j] = Some(s.weight_j);
        }
        for (w, l) in a.weights.iter().zip(last) {
            assert!(l.is_none_or(|l| same(*w, l)), "seed {seed}");
        }
    }
}

/// Strictly above 100·2^-52 in magnitude, by the patterns: with the sign bit
/// off those of numbers stand in their order up to infinity's, and NaN's behind.
fn support(list: &[f64]) -> u64 {
    let limit = 0x3d19_0000_0000_0000_u64;
    let infinity = 0x7ff0_0000_0000_0000;
    let patterns = list.iter().map(|x| x.to_bits() & !(1 << 63));
    patterns
        .filter(|x| (limit + 1..=infinity).contains(x))
        .count() as u64
}

#[test]
fn no_drawn_run_is_long() {
    let mut large = 0;
    for p in (0..20_000).flat_map(|seed| ALL.map(|draw| draw(seed))) {
        if judge(&p).is_none() && p.budget > 2000 {
            large += 1;
            let answer = solve(&p, false);
            let a = answer.accepted().expect("a large budget is given to a run");
            assert!(a.iterations < 2000 && p.budget <= MOST_PASSES);
        }
    }
    assert!(large > 0);
}

/// NaN patterns travel through drawing as they are: quiet or signalling, of
/// either sign.
#[test]
fn every_nan_pattern_is_lent() {
    let mut seen = vec![[false; 3]; NANS.len()];
    for seed in 0..30_000 {
        let p = draw(seed);
        for (nan, seen) in NANS.iter().zip(&mut seen) {
            seen[0] |= p.patterns().any(|x| x == *nan);
            seen[1] |= p.ceilings.iter().any(|c| c.to_bits() == *nan);
            seen[2] |= p.eps.to_bits() == *nan;
        }
    }
    assert_eq!(seen, vec![[true; 3]; NANS.len()]);
}
