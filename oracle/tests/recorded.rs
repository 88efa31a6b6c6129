//! The file of recorded answers: made again byte for byte, read back as it was
//! written, and worth its room.

use oracle::marks::Owed;
use oracle::problem::{Entry, Problem, BAD_FLOOR, MOST_SAMPLES};
use oracle::record::{check, chosen, file, read, record, Record, Told, MOST_RECORDED_PASSES};
use oracle::solve;
use std::fs;
use std::path::Path;

fn recorded() -> Vec<u8> {
    let path = Path::new(env!("CARGO_MANIFEST_DIR")).join("recorded/answers.bin");
    fs::read(path).expect("recorded/answers.bin is there")
}

#[test]
fn recording_twice_gives_the_bytes_that_are_here() {
    let (once, _) = chosen();
    let (again, _) = chosen();
    assert!(once == again, "recording isn't repeatable");
    assert!(
        file(&once) == recorded(),
        "recorded/answers.bin is not what `record` writes"
    );
}

#[test]
fn what_is_read_is_what_was_written() {
    let bytes = recorded();
    let records = read(&bytes).expect("the file is whole");
    let again: Vec<Vec<u8>> = records
        .iter()
        .map(|r| record(&r.problem, &r.told))
        .collect();
    assert!(file(&again) == bytes);
}

#[test]
fn every_answer_comes_out_again_and_every_kind_is_there() {
    let tally = check(&recorded()).expect("every answer comes out again");
    let wrong = tally.wrong();
    assert!(wrong.is_empty(), "{wrong:?}");
    for (name, owed, count) in tally.carried() {
        assert!(owed != Owed::Faint || count >= 4, "{count} {name}");
    }
    for name in OF_STILL {
        let count = tally.count(&format!("shrinking off: {name}"));
        assert!(count >= 4, "{count} {name}");
    }
    assert!((3000..=4000).contains(&tally.total), "{}", tally.total);
}

/// What runs of 16 samples and more with shrinking off have in the file.
const OF_STILL: [&str; 12] = [
    "n 16",
    "a gradient NaN",
    "some gradients NaN, others numbers",
    "a gradient infinite",
    "a gradient minus infinity",
    "a step among NaN gradients",
    "a first eight places behind a NaN",
    "a first eight places before a NaN",
    "a step among infinite gradients",
    "a first that has an equal",
    "a step over an infinite gap",
    "a gap whose square vanishes",
];

#[test]
fn the_file_keeps_its_limits() {
    let bytes = recorded();
    assert!(bytes.len() < 4_000_000, "{} bytes", bytes.len());
    let records = read(&bytes).expect("the file is whole");
    let mut sizes = Vec::new();
    for r in &records {
        assert_eq!(record(&r.problem, &r.told).len() % 8, 0);
        assert!(r.told.iterations <= MOST_RECORDED_PASSES);
        // a reader needs no more room than the largest accepted problem asks
        assert!(r.problem.matrix.len() as u64 <= 8 * MOST_SAMPLES * MOST_SAMPLES);
        assert!(r.problem.labels.len() as u64 <= MOST_SAMPLES);
        assert!(r.problem.crate_len <= MOST_SAMPLES + 8);
        assert!(r.problem.home_len <= MOST_SAMPLES + 8);
        assert!(r.problem.scratch_floats <= 7 * MOST_SAMPLES + 8);
        if r.told.refusal == 0 {
            sizes.push((r.problem.n, r.problem.entry));
        }
    }
    for n in [1, 2, 3, 64, 100, 128, 256, 512] {
        assert!(sizes.iter().any(|(m, _)| *m == n), "none of {n} samples");
    }
    for entry in Entry::ALL {
        assert!(sizes.contains(&(64, entry)), "{}", entry.name());
    }
}

/// Where the retired records begin, and where those with faint weights do.
const RETIRED: usize = 3431;
const FAINT: usize = 3725;
const STILL: usize = 3776;

fn room(records: &[Record]) -> usize {
    let each = records.iter();
    each.map(|r| record(&r.problem, &r.told).len()).sum()
}

#[test]
fn retired_records_stand_behind_the_others() {
    let bytes = recorded();
    let records = read(&bytes).expect("the file is whole");
    let (others, retired) = records[..FAINT].split_at(RETIRED);
    assert!(others.iter().all(|r| r.problem.retired.is_empty()));
    assert!(retired.iter().all(|r| r.problem.entry == Entry::Retired));
    assert_eq!(room(others) + 16, 3_496_312);
    assert_eq!(room(retired), 354_464);
    // a record has no place for a floor
    for number in Entry::Retired.judged().filter(|k| *k != BAD_FLOOR) {
        let of = retired.iter().filter(|r| r.told.refusal == number);
        assert!(of.count() >= 8, "refusal {number}");
    }
    for nu_rule in [false, true] {
        let kinds = |left: fn(usize, usize) -> bool| {
            retired.iter().any(|r| {
                let zeros = r.problem.retired.iter().filter(|b| **b == 0).count();
                let fits = r.told.refusal == 0 && r.problem.nu_rule == nu_rule;
                fits && left(zeros, r.problem.retired.len())
            })
        };
        assert!(kinds(|k, n| k == n && n > 1), "nobody");
        assert!(kinds(|k, n| 1 < k && k < n - 1), "some");
        assert!(kinds(|k, n| k == 1 && n > 2), "all but one");
        assert!(kinds(|k, n| k == 0 && n > 1), "everybody");
        assert!(kinds(|_, n| n >= 64), "many samples");
    }
}

/// Behind the retired records stand runs with weights near the support limit,
/// of every entry. The edges themselves, by their patterns.
#[test]
fn faint_records_stand_behind_those() {
    let records = read(&recorded()).expect("the file is whole");
    let faint = &records[FAINT..STILL];
    assert!(room(faint) < 40_000, "{} bytes", room(faint));
    assert!(faint.iter().all(|r| r.told.refusal == 0));
    let limit = 0x3d19_0000_0000_0000_u64;
    for pattern in [limit, limit + 1, limit - 1, 1, 1e-15_f64.to_bits()] {
        for pattern in [pattern, pattern | 1 << 63] {
            let of = records.iter().filter(|r| r.told.home.contains(&pattern));
            assert!(of.count() >= 4, "{pattern:x}");
        }
    }
    for entry in Entry::ALL {
        let of = faint.iter().filter(|r| r.problem.entry == entry);
        assert!(of.count() >= 4, "{}", entry.name());
    }
}

/// At the end stand runs with shrinking off, of the entries that then train
/// without an order table; half of them with huge entries.
#[test]
fn still_records_stand_at_the_end() {
    let records = read(&recorded()).expect("the file is whole");
    let still = &records[STILL..];
    assert!(still
        .iter()
        .all(|r| r.told.refusal == 0 && r.problem.n >= 16));
    assert!(still
        .iter()
        .all(|r| !r.problem.shrinking && Entry::STILL.contains(&r.problem.entry)));
    let huge = |r: &&Record| r.problem.entries().iter().any(|x| x.abs() >= 1e270);
    assert!(still.iter().filter(huge).count() >= 16);
    for entry in Entry::STILL {
        let of = still.iter().filter(|r| r.problem.entry == entry);
        assert!(of.count() >= 4, "{}", entry.name());
    }
}

/// The retired bytes stand behind the linear terms with their number, before
/// the answer; no other entry has them.
#[test]
fn a_retired_record_word_for_word() {
    let mut p = Problem::over(Entry::Retired, 2, &[1.0, 2.0, 3.0, 4.0]);
    (p.labels, p.retired) = (vec![1, 0], vec![0, 1]);
    (p.ceilings, p.alphas) = (vec![1.0, 2.0], vec![0.0, 2.0]);
    p.linear = vec![-1.0, 0.5];
    let words = |p: &Problem| -> Vec<u64> {
        let bytes = record(p, &Told::of(&solve(p, true)));
        let words = bytes.chunks_exact(8);
        words
            .map(|b| u64::from_le_bytes(b.try_into().unwrap()))
            .collect()
    };
    let all = words(&p);
    assert_eq!((all[0], all[1], all[2]), (8 * 49, 4, 2));
    assert_eq!((all[9], all[10], all[13], all[19]), (32, 2, 2, 1));
    // a matrix of four signed bytes, the labels
    assert_eq!((all[20], all[21]), (0x0403_0201, 0x01));
    let floats = [1.0, 2.0, 0.0, 2.0, -1.0, 0.5].map(f64::to_bits);
    assert_eq!(all[22..28], floats);
    // two retired bytes, filled up; then the answer
    assert_eq!((all[28], all[29]), (2, 0x0100));
    assert_eq!(all[30..32], [0, 0]);
    assert_eq!(all.len(), 30 + 10 + 4 * 2 + 1);
    p.entry = Entry::General;
    let general = words(&p);
    assert_eq!(general[2..28], all[2..28]);
    assert_eq!(general[28], 0);
    // none at all is a word of 0
    p.entry = Entry::Retired;
    p.retired.clear();
    assert_eq!(words(&p)[28..31], [0, 2, 0]);
}

#[test]
fn a_changed_file_is_noticed() {
    let bytes = recorded();
    assert!(read(&bytes[..bytes.len() - 8]).is_err());
    let mut more = bytes.clone();
    more.extend([0; 8]);
    assert!(read(&more).is_err());
    // the first record is the first worked run, whose rho stands behind 20
    // words, 4 matrix bytes and 2 labels in padded words, and two words
    let mut other = bytes.clone();
    let rho = 16 + 8 * (20 + 1 + 1 + 2);
    assert_eq!(other[rho..rho + 8], [0; 8]);
    other[rho] = 1;
    let wrong = check(&other).expect_err("a changed rho is noticed");
    assert_eq!(wrong.len(), 1);

    // the last retired record has 100 samples in form 1, so its retired bytes
    // stand behind 20 words, 10,000 and 100 bytes in words, 300 words and one more
    let records = read(&bytes).expect("the file is whole");
    let last = &records[FAINT - 1];
    let start = 16 + room(&records[..FAINT - 1]);
    let retired = start + 8 * (20 + 1250 + 13 + 300 + 1);
    let lent = &bytes[retired..retired + 100];
    assert_eq!(lent, last.problem.retired);
    let mut other = bytes.clone();
    let k = lent
        .iter()
        .position(|b| *b == 1)
        .expect("somebody is retired");
    other[retired + k] = 0;
    let wrong = check(&other).expect_err("a changed retired byte is noticed");
    assert_eq!(wrong.len(), 1);
    // and so is padding that isn't zero
    let mut other = bytes.clone();
    other[retired + 100] = 1;
    assert!(read(&other).is_err());
}
