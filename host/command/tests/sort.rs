//! Captions sorted by a model, over small files.
mod common;

use command::run;
use common::{both, file, folder, own, said, told, SMALL};
use std::fs;

const TRAIN: &str = include_str!("../../problems/panel.train");
const HELD: &str = include_str!("../../problems/panel.held");

/// A model of three languages with one caption each: the first is from its own value of 1 on the first's, and so on.
const MODEL: &str = "svm_type c_svc
kernel_type precomputed
nr_class 3
total_sv 3
rho 0 0 0
label 7 3 9
nr_sv 1 1 1
SV
1 1 0:1
-1 1 0:2
-1 -1 0:3
";

#[test]
fn each_caption_is_told_with_its_votes() {
    let f = folder("sort-list");
    let model = file(&f, "model", MODEL.as_bytes());
    let held = "7 0:1 1:3 2:2 3:1\n9 0:2 1:1 2:3 3:2\n3 0:41 1:1 2:2 3:3\n0:0.5 1:2 2:2 3:2 4:9\n";
    let path = file(&f, "held", held.as_bytes());
    let (out, err) = both("sort MODEL FILE", &path, &model).unwrap();
    let list = "  line serial  label  sorted  votes  runner-up  votes
     1      1      7       7      2          3      1
     2      2      9       3      2          9      1
     3     41      3       9      2          3      1
     4    0.5              7      2          3      1
";
    assert_eq!(out, list);
    let counts = "to be released\nAccuracy = 33.3333% (1/3)\nties: 0 of 4 captions\n";
    assert!(
        err.starts_with("note: ") && err.ends_with(counts),
        "{}",
        err
    );
    let (out, err) = both("sort -q --votes MODEL FILE", &path, &model).unwrap();
    let all = "  line serial  label  sorted  votes  runner-up  votes  all votes
     1      1      7       7      2          3      1  7:2 3:1 9:0
     2      2      9       3      2          9      1  7:0 3:2 9:1
     3     41      3       9      2          3      1  7:0 3:1 9:2
     4    0.5              7      2          3      1  7:2 3:1 9:0
";
    assert_eq!((out.as_str(), err.as_str()), (all, ""));
    let (out, _) = both("sort --labels MODEL FILE", &path, &model).unwrap();
    assert_eq!(out, "7\n3\n9\n7\n");
    // Nobody has a label, and no caption at all.
    let path = file(&f, "held", b"0:1 1:1 2:2 3:3\r\n");
    let (_, err) = both("sort MODEL FILE", &path, &model).unwrap();
    assert!(err.ends_with("to be released\nties: 0 of 1 captions\n"));
    let path = file(&f, "held", b"");
    let (out, err) = both("sort MODEL FILE", &path, &model).unwrap();
    let none = err.ends_with("to be released\nties: 0 of 0 captions\n");
    assert!(out.lines().count() == 1 && none, "{}", err);
}

/// Each of three beats the next: of equals the language that the model names first wins.
#[test]
fn a_tie_is_marked() {
    let f = folder("sort-tie");
    let model = file(
        &f,
        "model",
        MODEL.replace("rho 0 0 0", "rho 0 9 0").as_bytes(),
    );
    let path = file(&f, "held", b"9 0:1 1:3 2:2 3:1\n7 0:2 1:20 2:5 3:0\n");
    let (out, err) = both("sort MODEL FILE", &path, &model).unwrap();
    let lines: Vec<&str> = out.lines().skip(1).collect();
    assert_eq!(
        lines,
        [
            "     1      1      9       7      1          3      1  tie of 7 3 9",
            "     2      2      7       7      2          3      1",
        ]
    );
    let counts = "to be released\nAccuracy = 50% (1/2)\nties: 1 of 2 captions\n";
    assert!(
        err.starts_with("note: ") && err.ends_with(counts),
        "{}",
        err
    );
    let (out, _) = both("sort --votes MODEL FILE", &path, &model).unwrap();
    let first = out.lines().nth(1).unwrap();
    assert!(first.ends_with("  7:1 3:1 9:1  tie of 7 3 9"), "{}", first);
}

/// A sum that is rho, to the bit, is the first's; what is NaN is the second's.
#[test]
fn zero_is_the_firsts_and_nan_the_seconds() {
    let f = folder("sort-zero");
    let model = file(&f, "model", b"old");
    let train = file(&f, "small", SMALL.as_bytes());
    told("train -q FILE MODEL", &train, &model).unwrap();
    for (line, label) in [
        ("7 0:1 1:1 2:1", "7\n"),
        ("7 0:1 1:1 2:1.0000000000000002", "3\n"),
        ("7 0:1 1:1.0000000000000002 2:1", "7\n"),
        ("7 0:1 1:nan 2:1", "3\n"),
        ("7 0:1 1:inf 2:inf", "3\n"),
        ("7 0:1 1:-0.0 2:0", "7\n"),
    ] {
        let path = file(&f, "held", format!("{}\n", line).as_bytes());
        assert_eq!(
            told("sort --labels MODEL FILE", &path, &model).unwrap(),
            label
        );
    }
}

/// A model of two languages has one pair, and one vote.
#[test]
fn a_model_of_two_languages_is_sorted_by() {
    let f = folder("sort-two");
    let model = file(&f, "model", b"old");
    let train = file(&f, "small", b"-1 0:1 1:1 2:0\n+1 0:2 1:0 2:1\n");
    told("train -q FILE MODEL", &train, &model).unwrap();
    let path = file(&f, "held", b"-1 0:1 1:3 2:2\n+1 0:2 1:1 2:3\n");
    let (out, err) = both("sort --votes MODEL FILE", &path, &model).unwrap();
    let expected = "  line serial  label  sorted  votes  runner-up  votes  all votes
     1      1     -1      -1      1          1      0  1:0 -1:1
     2      2      1       1      1         -1      0  1:1 -1:0
";
    assert_eq!(out, expected);
    assert_eq!(err, "Accuracy = 100% (2/2)\nties: 0 of 2 captions\n");
}

/// Whoever is retired is named by no line of the model, so his kernel values have no say.
#[test]
fn a_retired_caption_has_no_say() {
    let f = folder("sort-retired");
    let (train, model) = (
        file(&f, "train", TRAIN.as_bytes()),
        file(&f, "model", b"old"),
    );
    told("train -q -c 0.5 --retired 4,8 FILE MODEL", &train, &model).unwrap();
    let sorted = |text: &str| {
        let path = file(&f, "held", text.as_bytes());
        told("sort --votes MODEL FILE", &path, &model).unwrap()
    };
    let spoilt: String = HELD
        .lines()
        .map(|line| {
            let spoil = |word: &str| match word.split_once(':') {
                Some(("4" | "8", _)) => format!("{}:nan", word.split_once(':').unwrap().0),
                _ => word.to_string(),
            };
            line.split(' ').map(spoil).collect::<Vec<_>>().join(" ") + "\n"
        })
        .collect();
    assert_ne!(spoilt, HELD);
    assert_eq!(sorted(&spoilt), sorted(HELD));
}

#[test]
fn what_is_wrong_with_the_captions_is_told_with_its_line() {
    let f = folder("sort-bad");
    let model = file(&f, "model", MODEL.as_bytes());
    let good = "7 0:1 1:3 2:2 3:1\n";
    for (line, told_of) in [
        (
            "7 0:1 1:3 2:2",
            "2 kernel values, but the model has the serial number 3",
        ),
        (
            "7 0:1",
            "0 kernel values, but the model has the serial number 3",
        ),
        ("7", "0:serial is missing"),
        ("", "an empty line"),
        ("x 0:1 1:3 2:2 3:1", "the label 'x' is not a whole number"),
        (
            "7.5 0:1 1:3 2:2 3:1",
            "the label '7.5' is not a whole number",
        ),
        (
            "7 1:3 2:2 3:1",
            "'1:3' stands where 0:serial, a whole number, should",
        ),
        (
            "7 0:x 1:3 2:2 3:1",
            "'0:x' stands where 0:serial, a whole number, should",
        ),
        ("7 0:1 1:3 3:1", "'3:1' stands where 2:number should"),
        (
            "7 0:1 1:3 2:two 3:1",
            "'2:two' stands where 2:number should",
        ),
    ] {
        let path = file(&f, "held", format!("{}{}\n{}", good, line, good).as_bytes());
        let mut out = Vec::new();
        let words = ["sort", &model, &path].map(str::to_string);
        let trouble = run(&words, &mut out, &mut Vec::new(), false).unwrap_err();
        let text = format!("{}:2: {}", path, told_of);
        assert_eq!((trouble.status(), trouble.to_string()), (3, text));
        assert_eq!(out, b"");
    }
    let path = file(&f, "held", b"7 0:1 1:3 2:2 3:1\n\xff\n");
    let trouble = told("sort MODEL FILE", &path, &model).unwrap_err();
    assert_eq!(
        trouble.to_string(),
        format!("{}:2: not a text in UTF-8", path)
    );
    let trouble = told("sort MODEL no-such-file", "", &model).unwrap_err();
    assert_eq!(trouble.status(), 3);
    assert!(trouble.to_string().starts_with("no-such-file: "));
}

#[test]
fn what_is_wrong_with_the_model_is_told_with_its_line() {
    let f = folder("sort-model");
    let held = file(&f, "held", b"7 0:1 1:3 2:2 3:1\n");
    let refused = |data: &[u8]| {
        let model = file(&f, "model", data);
        let trouble = told("sort MODEL FILE", &held, &model).unwrap_err();
        assert_eq!(trouble.status(), 3);
        let text = trouble.to_string();
        text.strip_prefix(&format!("{}:", model))
            .unwrap()
            .to_string()
    };
    // The captions in the model's place, a problem, bytes.
    let told_of = "1: '7' is no word of a model above SV";
    assert_eq!(refused(&fs::read(&held).unwrap()), told_of);
    assert_eq!(
        refused(&own(2, &[1.0, 0.0, 0.0, 1.0], &[1, 0])),
        "1: not a text in UTF-8"
    );
    assert_eq!(refused(b""), "1: the model ends before SV");
    // Cut short: the numbers tell, and the end of the last line.
    let cut = |end: usize| refused(MODEL[..end].as_bytes());
    let all = MODEL.len();
    assert_eq!(
        cut(all - "-1 -1 0:3\n".len()),
        "10: the model ends after 2 of 3 lines below SV"
    );
    assert_eq!(
        cut(all - "-1 0:3\n".len()),
        "11: 2 coefficients and 0:serial should stand here"
    );
    assert_eq!(
        cut(all - 1),
        "11: the last line has no end: the model may have been cut short"
    );
    let counts = MODEL.replace("nr_sv 1 1 1", "nr_sv 1 2 1");
    assert_eq!(
        refused(counts.as_bytes()),
        "8: the numbers of nr_sv don't add up to total_sv, 3"
    );
    let thirteen = MODEL.replace("nr_class 3", "nr_class 13");
    assert_eq!(
        refused(thirteen.as_bytes()),
        "8: nr_class 13: 2 to 12 languages are sorted"
    );
    let serial = MODEL.replace(" 0:2", "");
    assert_eq!(
        refused(serial.as_bytes()),
        "10: 2 coefficients and 0:serial should stand here"
    );
    // A model of one class.
    let train = file(&f, "small", SMALL.as_bytes());
    let model = file(&f, "one", b"old");
    told("train -q -s 2 FILE MODEL", &train, &model).unwrap();
    let text = refused(&fs::read(&model).unwrap());
    assert!(text.ends_with(": svm_type one_class: a model of classes is needed, c_svc or nu_svc (`decide` takes this one)"));
    let trouble = told("sort no-such-model FILE", &held, "").unwrap_err();
    assert_eq!(trouble.status(), 3);
    assert!(trouble.to_string().starts_with("no-such-model: "));
}

/// A model that `train` writes has its weights to the bit: what is read again is what was trained.
#[test]
fn training_captions_come_back() {
    let f = folder("sort-back");
    let (train, model) = (
        file(&f, "train", TRAIN.as_bytes()),
        file(&f, "model", b"old"),
    );
    for options in ["-c 10", "-c 10 -e 1e-7", "-s 1 -n 0.1"] {
        told(&format!("train -q {} FILE MODEL", options), &train, &model).unwrap();
        let (_, err) = both("sort MODEL FILE", &train, &model).unwrap();
        assert_eq!(err, "Accuracy = 100% (12/12)\nties: 0 of 12 captions\n");
    }
}

/// The lines that a page shows below a command, without their indent.
fn shown(page: &str, command: &str) -> String {
    let part = page.split(&format!("    {}\n", command)).nth(1).unwrap();
    let lines = part.lines().skip_while(|l| !l.is_empty()).skip(1);
    let lines = lines.skip_while(|l| !l.starts_with("    "));
    let block = lines.take_while(|l| l.starts_with("    "));
    block.map(|l| format!("{}\n", &l[4..])).collect()
}

/// What docs/SORTING.md shows is what is told.
#[test]
fn the_page_shows_what_is_told() {
    let page = include_str!("../../../docs/SORTING.md");
    let f = folder("sort-page");
    let (train, held) = (
        file(&f, "train", TRAIN.as_bytes()),
        file(&f, "held", HELD.as_bytes()),
    );
    let model = file(&f, "model", b"old");
    let summary = told("train -c 0.5 FILE MODEL", &train, &model).unwrap();
    let command = "target/release/altuliscia train -c 0.5 problems/panel.train target/panel.model";
    let parts = shown(page, command);
    assert!(
        parts.lines().count() > 4 && summary.starts_with(&parts),
        "{}",
        parts
    );
    let (list, err) = both("sort --votes MODEL FILE", &held, &model).unwrap();
    let command = "target/release/altuliscia sort --votes target/panel.model problems/panel.held";
    assert_eq!(shown(page, command), list + &err);
    let (list, _) = both("decide MODEL FILE", &held, &model).unwrap();
    let command = "target/release/altuliscia decide target/panel.model problems/panel.held";
    let some = [0, 1, 4].map(|k| format!("{}\n", list.lines().nth(k).unwrap()));
    assert_eq!(shown(page, command), some.concat());
    let captions = include_str!("../../problems/panel.captions");
    let trained: Vec<&str> = captions.lines().collect();
    assert_eq!(trained.len(), TRAIN.lines().count());
    for (k, caption) in trained.iter().enumerate() {
        let label = TRAIN.lines().nth(k).unwrap().split(' ').next().unwrap();
        let row = page
            .lines()
            .find(|l| l.starts_with(&format!("| {} | ", label)));
        assert!(row.unwrap().contains(caption), "{}", caption);
    }
    let words = ["weights", "-c", "0.5", "--pair", "1,2", &train];
    let (list, _) = said(&words).unwrap();
    let command = "target/release/altuliscia weights -c 0.5 --pair 1,2 problems/panel.train";
    assert_eq!(shown(page, command), list);
    // Some lines of it stand in the README.
    let readme = include_str!("../../../README.md");
    let (list, _) = both("sort MODEL FILE", &held, &model).unwrap();
    let some = [0, 3, 4].map(|k| format!("    {}\n", list.lines().nth(k).unwrap()));
    assert!(readme.contains(&some.concat()), "{}", some.concat());
    // The smallest problem on which svm-predict sorts otherwise.
    assert!(page.contains(&SMALL.replace('\n', "\n    ").trim_end().to_string()));
}

#[test]
fn help_tells_of_it() {
    let help = told("sort --help", "", "").unwrap();
    for part in [
        "\n  --votes     tells the votes of every language, too, as LABEL:VOTES\n",
        "\n  --labels    tells nothing but the label of each",
        "of equals the language that MODEL names first.",
    ] {
        assert!(help.contains(part), "{}", part);
    }
    assert!(told("--help", "", "")
        .unwrap()
        .contains("\n  altuliscia sort MODEL FILE "));
}
