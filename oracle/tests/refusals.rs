//! Each refusal by hand: number, index, and which comes first.

use oracle::draw::{NANS, PAST_LIMIT, PAST_ONE};
use oracle::problem::LIMIT;
use oracle::{judge, solve, Entry, Outcome, Problem};

/// A sound problem of three samples.
fn sound(entry: Entry) -> Problem {
    let entries = [2.0, 1.0, 0.0, 1.0, 2.0, 1.0, 0.0, 1.0, 2.0];
    let mut p = Problem::over(entry, 3, &entries);
    p.eps = 0.001;
    p.budget = 100;
    if entry.has_labels() {
        p.labels = vec![1, 0, 1];
    }
    match entry {
        Entry::General | Entry::Retired => {
            p.ceilings = vec![1.0, 2.0, 3.0];
            p.alphas = vec![0.5, 0.0, 3.0];
            p.linear = vec![-1.0, 0.0, 1.0];
        }
        Entry::C => {
            p.cpos = 1.0;
            p.cneg = 2.0;
        }
        Entry::Nu | Entry::OneClass => p.nu = 0.5,
    }
    if entry == Entry::Retired {
        p.retired = vec![0, 1, 0];
    }
    p
}

const LABELLED: [Entry; 4] = [Entry::General, Entry::C, Entry::Nu, Entry::Retired];
const WITH_LISTS: [Entry; 2] = [Entry::General, Entry::Retired];

fn told(p: &Problem) -> Option<(u64, u64)> {
    let judged = judge(p).map(|r| (r.number, r.index));
    let outcome = solve(p, false).outcome;
    match (judged, &outcome) {
        (Some(pair), Outcome::Refused(r)) => assert_eq!(pair, (r.number, r.index)),
        (None, Outcome::Accepted(_)) => {}
        _ => panic!("the judge says {judged:?}, the run {outcome:?}"),
    }
    judged
}

fn change(entry: Entry, f: impl FnOnce(&mut Problem)) -> Option<(u64, u64)> {
    let mut p = sound(entry);
    f(&mut p);
    told(&p)
}

fn nans() -> Vec<f64> {
    NANS.iter().map(|b| f64::from_bits(*b)).collect()
}

const TINY: f64 = f64::from_bits(1);

#[test]
fn sound_problems_are_accepted() {
    for entry in Entry::ALL {
        assert_eq!(told(&sound(entry)), None);
    }
}

#[test]
fn one_n_out_of_range() {
    for entry in Entry::ALL {
        for n in [0, 513, 1 << 31, 1 << 32, 1 << 61, 1 << 63, u64::MAX] {
            assert_eq!(change(entry, |p| p.n = n), Some((1, 0)));
            // with result lists and scratch that would do
            assert_eq!(
                change(entry, |p| {
                    p.n = n;
                    p.lend_exactly();
                }),
                Some((1, 0))
            );
        }
        let nothing = Problem::over(entry, 0, &[]);
        assert_eq!(told(&nothing), Some((1, 0)));
    }
}

#[test]
fn two_lengths() {
    for entry in Entry::ALL {
        for bytes in [0, 1, 64, 71, 73, 80, 8 * 16] {
            assert_eq!(change(entry, |p| p.matrix.resize(bytes, 0)), Some((2, 0)));
        }
        assert_eq!(change(entry, |p| p.crate_len = 2), Some((2, 0)));
        assert_eq!(change(entry, |p| p.home_len = 2), Some((2, 0)));
        assert_eq!(change(entry, |p| p.scratch_floats = 20), Some((2, 0)));
        assert_eq!(change(entry, |p| p.scratch_numbers = 5), Some((2, 0)));
        assert_eq!(change(entry, |p| p.scratch_bytes = 2), Some((2, 0)));
        assert_eq!(change(entry, |p| p.n = 2), Some((2, 0)));
        assert_eq!(change(entry, |p| p.n = 4), Some((2, 0)));
        // more room is fine
        let roomy = |p: &mut Problem| {
            p.crate_len = 4;
            p.home_len = u64::MAX;
            p.scratch_floats = 22;
            p.scratch_numbers = 1 << 63;
            p.scratch_bytes = 4;
        };
        assert_eq!(change(entry, roomy), None);
    }
    for entry in LABELLED {
        assert_eq!(change(entry, |p| p.labels.push(1)), Some((2, 0)));
        assert_eq!(change(entry, |p| p.labels.truncate(2)), Some((2, 0)));
    }
    for longer in [false, true] {
        for list in 0..3 {
            let change_list = |p: &mut Problem| {
                let lists = [&mut p.ceilings, &mut p.alphas, &mut p.linear];
                for (k, l) in lists.into_iter().enumerate() {
                    if k == list {
                        l.resize(if longer { 4 } else { 2 }, 1.0);
                    }
                }
            };
            for entry in WITH_LISTS {
                assert_eq!(change(entry, change_list), Some((2, 0)));
            }
        }
    }
}

#[test]
fn two_retired_bytes() {
    for len in [0, 2, 4, 24] {
        let change_list = |p: &mut Problem| p.retired.resize(len, 0);
        assert_eq!(change(Entry::Retired, change_list), Some((2, 0)));
        // the other entries don't take it
        for entry in Entry::DRAWN {
            assert_eq!(change(entry, change_list), None);
        }
    }
}

#[test]
fn three_kernel_entries() {
    let mut bad = nans();
    bad.extend([
        f64::INFINITY,
        f64::NEG_INFINITY,
        f64::MAX,
        PAST_LIMIT,
        -PAST_LIMIT,
    ]);
    for entry in Entry::ALL {
        for x in &bad {
            for k in 0..9 {
                let one = |p: &mut Problem| p.set_pattern(k, x.to_bits());
                assert_eq!(change(entry, one), Some((3, k as u64)));
                // a later one doesn't matter
                let two = |p: &mut Problem| {
                    p.set_pattern(k, x.to_bits());
                    p.set_pattern(8, f64::NAN.to_bits());
                };
                assert_eq!(change(entry, two), Some((3, k as u64)));
            }
        }
        for x in [LIMIT, -LIMIT, 0.0, -0.0, TINY, -TINY] {
            assert_eq!(change(entry, |p| p.set_pattern(4, x.to_bits())), None);
        }
    }
}

/// Column 2, row 1 of three: the index is c·n + r.
#[test]
fn three_the_index_is_column_first() {
    let nan = f64::NAN.to_bits();
    assert_eq!(
        change(Entry::C, |p| p.set_pattern(2 * 3 + 1, nan)),
        Some((3, 7))
    );
}

#[test]
fn four_labels() {
    for entry in LABELLED {
        for y in [2, 3, 128, 255] {
            for k in 0..3 {
                assert_eq!(change(entry, |p| p.labels[k] = y), Some((4, k as u64)));
            }
        }
        assert_eq!(change(entry, |p| p.labels = vec![1, 7, 9]), Some((4, 1)));
    }
}

#[test]
fn five_ceilings() {
    let mut bad = nans();
    bad.extend([0.0, -0.0, -1.0, -TINY, PAST_LIMIT, f64::INFINITY]);
    bad.push(f64::NEG_INFINITY);
    for c in &bad {
        for k in 0..3 {
            // the weight is 0, so that its own number doesn't apply
            let one = |p: &mut Problem| {
                p.alphas[k] = 0.0;
                p.ceilings[k] = *c;
            };
            for entry in WITH_LISTS {
                assert_eq!(change(entry, one), Some((5, k as u64)));
            }
        }
        assert_eq!(change(Entry::C, |p| p.cpos = *c), Some((5, 0)));
        assert_eq!(change(Entry::C, |p| p.cneg = *c), Some((5, 1)));
        let both = |p: &mut Problem| {
            p.cpos = *c;
            p.cneg = *c;
        };
        assert_eq!(change(Entry::C, both), Some((5, 0)));
        // judged even where no sample has the label
        let positive = |p: &mut Problem| {
            p.labels = vec![1; 3];
            p.cneg = *c;
        };
        assert_eq!(change(Entry::C, positive), Some((5, 1)));
        let negative = |p: &mut Problem| {
            p.labels = vec![0; 3];
            p.cpos = *c;
        };
        assert_eq!(change(Entry::C, negative), Some((5, 0)));
    }
    for c in [LIMIT, TINY] {
        let set = |p: &mut Problem| {
            p.ceilings = vec![c; 3];
            p.alphas = vec![0.0, -0.0, c];
        };
        for entry in WITH_LISTS {
            assert_eq!(change(entry, set), None);
        }
        assert_eq!(change(Entry::C, |p| p.cpos = c), None);
    }
}

#[test]
fn six_start_alphas() {
    let past = f64::from_bits(1.0f64.to_bits() + 1);
    let mut bad = nans();
    bad.extend([past, 2.0, -TINY, -1.0, f64::INFINITY, f64::NEG_INFINITY]);
    for a in bad {
        for k in 0..3 {
            let one = |p: &mut Problem| {
                p.ceilings = vec![1.0; 3];
                p.alphas = vec![1.0, -0.0, 0.5];
                p.alphas[k] = a;
            };
            for entry in WITH_LISTS {
                assert_eq!(change(entry, one), Some((6, k as u64)));
            }
        }
    }
}

#[test]
fn seven_linear_terms() {
    let mut bad = nans();
    bad.extend([f64::INFINITY, f64::NEG_INFINITY]);
    for entry in WITH_LISTS {
        for x in &bad {
            for k in 0..3 {
                assert_eq!(change(entry, |p| p.linear[k] = *x), Some((7, k as u64)));
            }
        }
        for x in [f64::MAX, -f64::MAX, -0.0] {
            assert_eq!(change(entry, |p| p.linear = vec![x; 3]), None);
        }
    }
}

#[test]
fn eight_eps() {
    let mut bad = nans();
    bad.extend([-0.0, -TINY, -1.0, f64::INFINITY, f64::NEG_INFINITY]);
    for entry in Entry::ALL {
        for x in &bad {
            assert_eq!(change(entry, |p| p.eps = *x), Some((8, 0)));
        }
        for x in [0.0, TINY, f64::MAX] {
            assert_eq!(change(entry, |p| p.eps = x), None);
        }
    }
}

#[test]
fn nine_nu() {
    let mut bad = nans();
    bad.extend([0.0, -0.0, -0.5, PAST_ONE, 2.0, f64::INFINITY]);
    bad.push(f64::NEG_INFINITY);
    for entry in [Entry::Nu, Entry::OneClass] {
        for x in &bad {
            assert_eq!(change(entry, |p| p.nu = *x), Some((9, 0)));
        }
        for x in [TINY, 1.0] {
            assert_eq!(change(entry, |p| p.nu = x), None);
        }
    }
    // the other entries don't take it
    for entry in [Entry::General, Entry::C, Entry::Retired] {
        assert_eq!(change(entry, |p| p.nu = f64::NAN), None);
    }
}

#[test]
fn ten_budget() {
    for entry in Entry::ALL {
        for budget in [0, 10_000_001, 1 << 32, u64::MAX] {
            assert_eq!(change(entry, |p| p.budget = budget), Some((10, 0)));
        }
        for budget in [1, 10_000_000] {
            assert_eq!(change(entry, |p| p.budget = budget), None);
        }
    }
}

#[test]
fn twelve_retired_bytes() {
    for b in [2, 3, 128, 255] {
        for k in 0..3 {
            let one = |p: &mut Problem| p.retired[k] = b;
            assert_eq!(change(Entry::Retired, one), Some((12, 0)));
            for entry in Entry::DRAWN {
                let unread = |p: &mut Problem| p.retired = vec![b; 3];
                assert_eq!(change(entry, unread), None);
            }
        }
    }
    for bytes in [[0, 0, 0], [1, 1, 1], [1, 0, 1]] {
        let set = |p: &mut Problem| p.retired = bytes.to_vec();
        assert_eq!(change(Entry::Retired, set), None);
    }
}

#[test]
fn thirteen_shrinking() {
    for retired in [[0; 3], [1; 3], [0, 1, 0]] {
        let on = |p: &mut Problem| {
            p.shrinking = true;
            p.retired = retired.to_vec();
        };
        assert_eq!(change(Entry::Retired, on), Some((13, 0)));
    }
    for entry in Entry::DRAWN {
        assert_eq!(change(entry, |p| p.shrinking = true), None);
    }
}

#[test]
fn fourteen_floor() {
    let mut bad = nans();
    bad.extend([0.0, -0.0, -TINY, -1e-10, -1.0, PAST_ONE, 2.0, f64::MAX]);
    bad.extend([f64::INFINITY, f64::NEG_INFINITY]);
    let below_one = f64::from_bits(1.0f64.to_bits() - 1);
    for entry in Entry::ALL {
        for x in &bad {
            assert_eq!(change(entry, |p| p.floor = *x), Some((14, 0)));
        }
        for x in [TINY, 1e-300, 1e-12, 1e-10, below_one, 1.0] {
            assert_eq!(change(entry, |p| p.floor = x), None);
        }
    }
}

/// Each entry has its numbers before a run, and 11 isn't among them.
#[test]
fn the_numbers_of_each_entry() {
    let numbers = |entry: Entry| entry.judged().collect::<Vec<u64>>();
    assert_eq!(numbers(Entry::General), [1, 2, 3, 4, 5, 6, 7, 8, 10, 14]);
    assert_eq!(numbers(Entry::C), [1, 2, 3, 4, 5, 8, 10, 14]);
    assert_eq!(numbers(Entry::Nu), [1, 2, 3, 4, 8, 9, 10, 14]);
    assert_eq!(numbers(Entry::OneClass), [1, 2, 3, 8, 9, 10, 14]);
    assert_eq!(
        numbers(Entry::Retired),
        [1, 2, 3, 4, 5, 6, 7, 8, 10, 14, 12, 13]
    );
    for entry in Entry::ALL {
        assert_eq!(entry.can_refuse(11), entry != Entry::Retired);
        assert_eq!(Entry::from_number(entry.number()), Some(entry));
    }
    assert_eq!(Entry::Retired.number(), 4);
    assert_eq!(Entry::from_number(5), None);
}

/// All faults at once, taken away one after another: each time the first of
/// those left is told, in the order 1 to 10, 14, 12, 13.
#[test]
fn the_first_is_given() {
    for entry in WITH_LISTS {
        all_at_once(entry);
    }
    let mut p = sound(Entry::Nu);
    p.budget = 0;
    p.nu = 0.0;
    p.floor = 0.0;
    assert_eq!(told(&p), Some((9, 0)));
    p.nu = 1.0;
    assert_eq!(told(&p), Some((10, 0)));
    p.budget = 1;
    assert_eq!(told(&p), Some((14, 0)));
}

/// The faulty values stand at sample 1, which is retired where that can be.
fn all_at_once(entry: Entry) {
    let mut p = sound(entry);
    p.shrinking = entry == Entry::Retired;
    p.retired.iter_mut().skip(2).for_each(|b| *b = 2);
    p.floor = f64::NAN;
    p.budget = 0;
    p.eps = -0.0;
    p.linear[1] = f64::NAN;
    p.alphas[1] = -1.0;
    p.ceilings[1] = 0.0;
    p.labels[1] = 2;
    p.set_pattern(5, u64::MAX);
    p.crate_len = 0;
    p.n = 513;
    assert_eq!(told(&p), Some((1, 0)));
    p.n = 3;
    assert_eq!(told(&p), Some((2, 0)));
    p.crate_len = 3;
    assert_eq!(told(&p), Some((3, 5)));
    p.set_pattern(5, 0);
    assert_eq!(told(&p), Some((4, 1)));
    p.labels[1] = 0;
    assert_eq!(told(&p), Some((5, 1)));
    p.ceilings[1] = 1.0;
    assert_eq!(told(&p), Some((6, 1)));
    p.alphas[1] = 0.0;
    assert_eq!(told(&p), Some((7, 1)));
    p.linear[1] = 0.0;
    assert_eq!(told(&p), Some((8, 0)));
    p.eps = 0.0;
    assert_eq!(told(&p), Some((10, 0)));
    p.budget = 1;
    assert_eq!(told(&p), Some((14, 0)));
    p.floor = 1.0;
    if entry == Entry::Retired {
        assert_eq!(told(&p), Some((12, 0)));
        p.retired[2] = 1;
        assert_eq!(told(&p), Some((13, 0)));
        p.shrinking = false;
    }
    assert_eq!(told(&p), None);
}
