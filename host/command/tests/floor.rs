//! Trainings with another floor of the curvature.
mod common;
mod whole;

use command::{run, Trouble};
use common::{file, folder, own, said, told, SMALL};
use std::fs;
use whole::whole;

/// Two samples that are alike but for their label: along them the curvature is 0.
const FLAT: &str = "7 0:1 1:1 2:1\n3 0:2 1:1 2:1\n";

#[test]
fn a_smaller_floor_takes_longer_steps() {
    let f = folder("floor-steps");
    let path = file(&f, "flat.txt", FLAT.as_bytes());
    let with = |options: &str| {
        let words = ["train", "-c", "1e12", &path, "/dev/null"];
        let words = words.into_iter().chain(options.split_whitespace());
        whole(&words.collect::<Vec<_>>()).1
    };
    let usual = with("");
    assert!(usual.starts_with("optimization finished, #iter = 50\n"));
    for same in ["1e-10", "0.0000000001", "+1E-10"] {
        assert_eq!(with(&format!("--floor {}", same)), usual);
    }
    let other = usual
        .replace("#iter = 50", "#iter = 1")
        .replace("--floor 1e-10", "--floor 1e-12")
        .replace("options:", "floor = 1e-12\noptions:");
    assert_eq!(with("--floor 1e-12"), other);
    let few = with("--floor 1 --budget 9");
    assert!(few.contains("\nfloor = 1.0\noptions: ") && few.contains("\nexit reason: iterations"));
    let least = with("--floor 5e-324");
    assert!(least.contains("#iter = 1\n") && least.contains("\nfloor = 5e-324\n"));
}

/// Along samples of one label the curvature is 1 + 0.5 - 2*0.75.
#[test]
fn every_fit_takes_it() {
    let f = folder("floor-fits");
    let retired = FLAT.replace('\n', " 3:0\n") + "3 0:3 1:0 2:0 3:1\n";
    let pair = [1.0, 0.75, 0.75, 0.5];
    let mut pairs = [0.0; 16];
    for (k, entry) in pair.iter().enumerate() {
        let place = 4 * (k / 2) + k % 2;
        pairs[place] = *entry;
        pairs[place + 10] = *entry;
    }
    for (options, data) in [
        ("-s 0 -c 8 --retired 3", retired.into_bytes()),
        ("-s 1 -n 0.25", own(4, &pairs, &[1, 1, 0, 0])),
        ("-s 2 -n 0.25", own(2, &pair, &[])),
    ] {
        let path = file(&f, "flat", &data);
        let list = |rest: &str| {
            let line = format!("weights {} --budget 2 {}", options, rest);
            let words: Vec<&str> = line.split_whitespace().chain([&path[..]]).collect();
            let (status, out, err) = whole(&words);
            (status, out, err)
        };
        let (_, usual, beside) = list("");
        let (_, other, beside_other) = list("--floor 1");
        assert_ne!(usual, other, "{}", options);
        assert!(!beside.contains("\nfloor = "));
        assert!(beside_other.contains("\nfloor = 1.0\n"), "{}", beside_other);
        let (status, quiet, beside) = list("-q --floor 1");
        assert_eq!((status, quiet), (6, other));
        assert_eq!(
            beside,
            "altuliscia: not to be released: the budget ran out, all 2 of it\n"
        );
    }
}

const REFUSED: &str = "--floor must be above 0 and not above 1: it is ";

#[test]
fn a_bad_floor_is_refused_and_nothing_is_written() {
    let f = folder("floor-bad");
    let path = file(&f, "small.txt", SMALL.as_bytes());
    let model = file(&f, "model", b"old");
    for (word, place) in [
        ("0", "0.0"),
        ("-0", "-0.0"),
        ("1e-400", "0.0"),
        ("-1", "-1.0"),
        ("nan", "nan"),
        ("inf", "inf"),
        ("-inf", "-inf"),
        ("1.0000000000000002", "1.0000000000000002"),
        ("1e400", "inf"),
    ] {
        let expected = format!("{}{} (refusal 14)", REFUSED, place);
        for command in ["train", "weights"] {
            let words = [command, "--floor", word, &path, &model];
            let words = &words[..if command == "train" { 5 } else { 4 }];
            let trouble = said(words).unwrap_err();
            assert_eq!(
                (trouble.status(), trouble.to_string()),
                (24, expected.clone())
            );
        }
        let (told, done) = checked(&["--floor", word, &path]);
        let count = format!("{}: 2 samples, 1 fault\n", path);
        assert_eq!(told, format!("{}\n{}", expected, count));
        assert_eq!(done, Err(Trouble::Faults(24)));
    }
    for word in ["x", "", "1,0", "1e-10 ", "0x1p-33"] {
        let trouble = said(&["train", "--floor", word, &path, &model]).unwrap_err();
        let told = format!(
            "--floor: '{}' is not a number (see altuliscia --help)",
            word
        );
        assert_eq!((trouble.status(), trouble.to_string()), (2, told));
    }
    assert_eq!(fs::read(&model).unwrap(), b"old");
    assert_eq!(fs::read_dir(&f).unwrap().count(), 2);
}

/// What a check tells on standard output, and how it ends.
fn checked(words: &[&str]) -> (String, Result<(), Trouble>) {
    let words = ["check"].iter().chain(words).map(|word| word.to_string());
    let mut out = Vec::new();
    let done = run(&words.collect::<Vec<_>>(), &mut out, &mut Vec::new(), false);
    (String::from_utf8(out).unwrap(), done)
}

#[test]
fn a_check_names_it_behind_the_budget_and_before_the_list() {
    let f = folder("floor-check");
    let path = file(&f, "small.txt", SMALL.as_bytes());
    let (told, done) = checked(&[
        "--floor",
        "0",
        "--budget",
        "0",
        "--retired",
        "9",
        "-h",
        "1",
        &path,
    ]);
    let starts = [
        "--budget must be 1 to 10000000: it is 0 (refusal 10)",
        "--floor must be above 0 and not above 1: it is 0.0 (refusal 14)",
        "--retired: no sample ",
        "-h 1 beside --retired: leave -h 1 out (refusal 13)",
    ];
    let lines: Vec<&str> = told.lines().collect();
    assert_eq!(lines.len(), starts.len() + 1);
    for (line, start) in lines.iter().zip(starts) {
        assert!(line.starts_with(start), "{}", line);
    }
    assert_eq!(done, Err(Trouble::Faults(20)));
    let (_, done) = checked(&["--floor", "nan", "--retired", "9", "-h", "1", &path]);
    assert_eq!(done, Err(Trouble::Faults(24)));
    for good in ["1", "1e-12", "5e-324"] {
        let (told, done) = checked(&["--floor", good, &path]);
        assert!(told.ends_with("2 samples, no fault\n") && done.is_ok());
    }
}

/// It isn't looked for the file, either; a bad floor is refused as ever.
#[test]
fn there_is_no_trail_with_another_floor() {
    for word in ["1e-12", "1", "1.0000000000000002e-10"] {
        let words = ["trail", "--sample", "1", "--floor", word, "no-such-file"];
        let trouble = said(&words).unwrap_err();
        let told = "--floor: a trail is told with the usual one only, 1e-10; where every curvature is above 0 no floor has a say (see altuliscia --help)";
        assert_eq!((trouble.status(), trouble.to_string().as_str()), (2, told));
    }
    let f = folder("floor-trail");
    let path = file(&f, "small.txt", SMALL.as_bytes());
    let trail = |options: &str| told(&format!("trail --sample 1 {} FILE", options), &path, "");
    assert_eq!(trail("--floor 1e-10").unwrap(), trail("").unwrap());
    for word in ["0", "nan", "1.0000000000000002"] {
        let words = ["trail", "--sample", "1", "--floor", word, &path];
        assert_eq!(said(&words).unwrap_err().status(), 24);
    }
}

/// linfa-svm has one floor, so with another it would say what is listed.
#[test]
fn the_crates_list_is_not_said_by_linfa_svm() {
    let f = folder("floor-says");
    let path = file(&f, "small.txt", SMALL.as_bytes());
    let list = |options: &str| told(&format!("weights {} FILE", options), &path, "").unwrap();
    assert!(list("").contains("ceiling  linfa-svm says\n"));
    assert!(list("--floor 1").contains("ceiling  linfa-svm would say\n"));
}

#[test]
fn help_tells_of_it() {
    for line in [
        "train --help",
        "weights --help",
        "check --help",
        "trail --help",
    ] {
        let help = told(line, "", "").unwrap();
        assert!(
            help.contains("\n  --floor X   stands for the curvature"),
            "{}",
            line
        );
        assert!(help.contains("(11 to 24)"), "{}", line);
    }
    let help = told("trail --help", "", "").unwrap();
    assert!(help.contains("There is no trail with -h 1, nor with another floor than 1e-10."));
}
