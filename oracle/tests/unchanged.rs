//! What was there before stays. The sums of draws and records are those from
//! when every weight but 0 was counted as support: with that count put back,
//! every byte is as it was.

use oracle::problem::Problem;
use oracle::record::{read, record, Told};
use oracle::{draw, solve, Entry};
use std::fs;
use std::path::Path;

const START: u64 = 0xcbf2_9ce4_8422_2325;

/// FNV-1a of the bytes, going on from an earlier sum.
fn sum(from: u64, bytes: &[u8]) -> u64 {
    bytes.iter().fold(from, |sum, b| {
        (sum ^ u64::from(*b)).wrapping_mul(0x0000_0100_0000_01b3)
    })
}

#[test]
fn the_sum_is_right_on_known_texts() {
    assert_eq!(sum(START, b"a"), 0xaf63_dc4c_8601_ec8c);
    assert_eq!(sum(START, b"foobar"), 0x8594_4171_f739_67e8);
}

/// The record with the count as it was: all patterns but those of the zeros.
fn before(p: &Problem, mut told: Told) -> Vec<u8> {
    let zeros = [0, 1 << 63];
    let others = told.home.iter().filter(|x| !zeros.contains(*x));
    told.support = others.count() as u64;
    record(p, &told)
}

#[test]
fn a_seed_draws_what_it_always_did() {
    let mut all = START;
    for seed in (0..5000).chain(u64::MAX - 99..=u64::MAX) {
        let p = draw(seed);
        assert!(p.entry != Entry::Retired && p.retired.is_empty());
        all = sum(all, &before(&p, Told::of(&solve(&p, true))));
    }
    assert_eq!(all, 0x48af_da0d_788a_011a);
}

/// The first file had no retired entry, the second no faint weights, the third
/// no larger runs with shrinking off but a few.
#[test]
fn the_first_records_are_those_of_the_first_three_files() {
    let path = Path::new(env!("CARGO_MANIFEST_DIR")).join("recorded/answers.bin");
    let bytes = fs::read(path).expect("recorded/answers.bin is there");
    let records = read(&bytes).expect("the file is whole");
    let mut all = START;
    let mut sums = records.into_iter().map(|r| {
        all = sum(all, &before(&r.problem, r.told));
        all
    });
    assert_eq!(sums.nth(3430), Some(0x98c0_fa2f_697b_18dd));
    assert_eq!(sums.nth(293), Some(0x1d97_fa23_7170_9f09));
    assert_eq!(sums.nth(50), Some(0x1fdb_1a79_1852_8ee5));
}
