//! Weights in other forms, of one sample, with captions, and those of a model; decisions; and what is read from standard input.
mod bare;
mod common;
mod program;
mod whole;

use bare::bare;
use common::{both, file, folder, own, told, SMALL};
use program::program;
use std::fs;
use std::io::Write;
use std::process::{Command, Stdio};
use whole::whole;

const PANEL: &str = include_str!("../../problems/panel.train");
const HELD: &str = include_str!("../../problems/panel.held");
const CAPTIONS: &str = include_str!("../../problems/panel.captions");

/// The parts of a line of CSV that has no quotes.
fn fields(line: &str) -> Vec<&str> {
    line.split(',').collect()
}

#[test]
fn csv_has_the_same_fields_in_every_line() {
    let f = folder("lists-csv");
    let path = file(&f, "a", PANEL.as_bytes());
    let line = "weights -c 0.5 --pair 1,2 --retired 5 FILE";
    let table = told(line, &path, "").unwrap();
    let csv = told(&line.replace("weights", "weights --csv"), &path, "").unwrap();
    let names = "sample,serial,label,against,weight,ceiling,mark,linfa_svm,caption,eps";
    assert_eq!(csv.lines().next(), Some(names));
    assert_eq!(csv.lines().count(), 9);
    let (mut at, mut gone) = (0, 0);
    for (row, told) in csv.lines().skip(1).zip(table.lines().skip(1)) {
        let (row, told) = (fields(row), told.split_whitespace().collect::<Vec<_>>());
        assert_eq!(row.len(), 10);
        assert_eq!([row[0], row[1], row[2], row[4]], told[..4]);
        assert_eq!(row[3], if row[2] == "1" { "2" } else { "1" });
        assert_eq!(row[6], *told.get(4).unwrap_or(&""));
        assert_eq!(
            (row[5], row[7], row[8], row[9]),
            ("0.5", row[4], "", "0.001")
        );
        at += usize::from(row[6] == "at");
        gone += usize::from(row[6] == "retired");
    }
    assert!(at > 0 && gone == 1, "{}", csv);
    let words = ["weights", "--csv", "-e1e-7", "-s2", "-n.5", &path];
    let (_, csv, _) = whole(&words);
    let row = fields(csv.lines().nth(1).unwrap());
    assert_eq!(
        (row.len(), row[2], row[3], row[5], row[9]),
        (10, "", "", "1.0", "1e-7")
    );
}

#[test]
fn json_has_every_field() {
    let f = folder("lists-json");
    let path = file(&f, "a", SMALL.as_bytes());
    let texts = file(&f, "texts", "say \"a\", b\\c\nčaj\n".as_bytes());
    let words = ["weights", "--json", "--captions", &texts, &path];
    let (status, json, _) = whole(&words);
    let expected = format!(
        r#"{{
  "file": "{}",
  "model": false,
  "version": "{}",
  "options": "-s 0 -c 1.0 -e 0.001 -h 0 --budget 10000000 --floor 1e-10",
  "eps": 0.001,
  "retired": [],
  "release": true,
  "unfit": null,
  "cautions": [],
  "trainings": [{{"pair": "7,3", "rho": 0.0, "exit": "threshold"}}],
  "weights": [
    {{"sample": 0, "serial": 1, "label": 7, "against": 3, "weight": 1.0, "ceiling": 1.0, "mark": "at", "linfa_svm": 1.0, "caption": "say \"a\", b\\c"}},
    {{"sample": 1, "serial": 2, "label": 3, "against": 7, "weight": -1.0, "ceiling": 1.0, "mark": "at", "linfa_svm": -1.0, "caption": "čaj"}}
  ]
}}
"#,
        path,
        env!("CARGO_PKG_VERSION")
    );
    assert_eq!((status, json), (0, expected));
    // The same caption in CSV, and in the table.
    let (_, csv, _) = whole(&["weights", "--csv", "--captions", &texts, &path]);
    let row = "0,1,7,3,1.0,1.0,at,1.0,\"say \"\"a\"\", b\\c\",0.001";
    assert_eq!(csv.lines().nth(1), Some(row));
    let (_, table, _) = whole(&["weights", "--captions", &texts, &path]);
    let lines: Vec<&str> = table.lines().collect();
    let head = "sample serial  label  weight                    ceiling  linfa-svm says            caption";
    assert_eq!(lines[0], head);
    let row = "     1      2      3  -1.0                      at                                 \"čaj\"";
    assert_eq!(lines[2], row);
    // What isn't finite is a string: JSON has no such numbers.
    let zeros = file(&f, "zeros", &own(4, &[0.0; 16], &[1, 1, 0, 0]));
    let (status, json, _) = whole(&["weights", "--json", "-s1", "-n.25", &zeros]);
    assert_eq!(status, 6);
    for part in [
        "\"release\": false,\n  \"unfit\": \"r, by which the weights are divided, is 0.0\"",
        "\"rho\": \"nan\"",
        "\"weight\": \"-inf\", \"ceiling\": \"inf\", \"mark\": null",
    ] {
        assert!(json.contains(part), "{} {}", part, json);
    }
}

#[test]
fn one_sample_is_listed_by_its_serial_number() {
    let f = folder("lists-sample");
    let path = file(&f, "a", PANEL.as_bytes());
    let texts = file(&f, "texts", CAPTIONS.as_bytes());
    let words = [
        "weights",
        "-c.5",
        "--pair=1,2",
        "--sample",
        "5",
        "--captions",
        &texts,
        &path,
    ];
    let (_, table, err) = whole(&words);
    let lines: Vec<&str> = table.lines().skip(1).collect();
    let row = "     3      5      2  -0.38470698064319453                                         \"INDIETRO\"";
    assert_eq!(lines, [row]);
    assert!(
        err.starts_with("pair: 1 2\nexit reason: threshold\nrho = "),
        "{}",
        err
    );
    for (serial, told_of) in [
        (
            "3",
            format!("--sample: serial 3 is in {} but not in the pair 1 2", path),
        ),
        (
            "13",
            format!("--sample: no sample of {} has the serial number 13", path),
        ),
        (
            "x",
            "--sample: 'x' is not a serial number, which is a whole number".to_string(),
        ),
    ] {
        let words = ["weights", "--pair=1,2", "--sample", serial, &path];
        let (status, out, err) = whole(&words);
        let expected = format!("altuliscia: {} (see altuliscia --help)\n", told_of);
        assert_eq!((status, out.as_str(), err), (2, "", expected));
    }
    let few = file(&f, "few", b"one\n");
    let (status, out, _) = whole(&["weights", "--pair=1,2", "--captions", &few, &path]);
    assert_eq!((status, out.as_str()), (3, ""));
}

/// What a model lists is what was trained, but for zeros.
#[test]
fn the_weights_of_a_model_are_those_that_were_trained() {
    let f = folder("lists-model");
    let (path, model) = (file(&f, "a", PANEL.as_bytes()), file(&f, "model", b"old"));
    told(
        "train -q -c 0.5 -w3 2 --retired 4 FILE MODEL",
        &path,
        &model,
    )
    .unwrap();
    let of_model = told("weights --csv -q MODEL", "", &model).unwrap();
    let mut found = 0;
    for pair in ["1,2", "1,3", "2,3"] {
        let options = format!("--csv -q --pair {}", pair);
        let line = format!("weights -c 0.5 -w3 2 --retired 4 {} FILE", options);
        let trained = told(&line, &path, "").unwrap();
        let (alone, _) = both(&format!("weights {} MODEL", options), "", &model).unwrap();
        // Those of the first label before those of the second.
        let (first, _) = pair.split_once(',').unwrap();
        let mut rows: Vec<Vec<&str>> = trained.lines().skip(1).map(fields).collect();
        rows.retain(|row| row[4].parse::<f64>().unwrap() != 0.0);
        rows.sort_by_key(|row| row[2] != first);
        let rows = rows.iter().map(|row| {
            let known = [&[""][..], &row[1..7], &["", ""], &row[9..]];
            known.concat().join(",")
        });
        let rows: Vec<String> = rows.collect();
        assert_eq!(alone.lines().skip(1).collect::<Vec<_>>(), rows);
        assert!(rows.iter().all(|row| of_model.contains(row)));
        found += rows.len();
    }
    assert_eq!(of_model.lines().count(), found + 1);
    assert!(of_model.contains(",at,") && found > 12);
    let (table, err) = both("weights --pair 2,1 --sample 2 MODEL", "", &model).unwrap();
    let expected =
        "serial  label  against  weight                    ceiling\n     2      2        1  -0.";
    assert!(
        table.starts_with(expected) && table.lines().count() == 2,
        "{}",
        table
    );
    assert!(
        err.contains("\noptions: -s 0 -c 0.5 -w3 2.0 -e 0.001 "),
        "{}",
        err
    );
}

#[test]
fn what_a_model_does_not_say_is_empty() {
    let f = folder("lists-bare");
    let (path, model) = (file(&f, "a", PANEL.as_bytes()), file(&f, "model", b"old"));
    told("train -q -c 0.5 FILE MODEL", &path, &model).unwrap();
    let old = fs::read_to_string(&model).unwrap();
    let old = file(&f, "old", bare(&old).as_bytes());
    let json = told("weights --json MODEL", "", &old).unwrap();
    for name in ["version", "options", "eps", "retired", "release", "unfit"] {
        assert!(
            json.contains(&format!("\n  \"{}\": null,\n", name)),
            "{}",
            json
        );
    }
    let csv = told("weights --csv MODEL", "", &old).unwrap();
    assert!(
        csv.lines().skip(1).all(|row| row.ends_with(",,,,,")),
        "{}",
        csv
    );
    told("train -q -s 2 -n 0.5 FILE MODEL", &path, &model).unwrap();
    let json = told("weights --json MODEL", "", &model).unwrap();
    assert!(
        json.contains("\"trainings\": [{\"pair\": null, \"rho\": "),
        "{}",
        json
    );
    assert!(json.contains(
        "\"label\": null, \"against\": null, \"weight\": 1.0, \"ceiling\": 1.0, \"mark\": \"at\""
    ));
}

#[test]
fn what_a_model_can_not_answer_is_told() {
    let f = folder("lists-refused");
    let (path, model) = (file(&f, "a", PANEL.as_bytes()), file(&f, "model", b"old"));
    told("train -q -c 0.5 --retired 4 FILE MODEL", &path, &model).unwrap();
    for (options, told_of) in [
        (
            "-c 1",
            format!(
                "-c: {} is a model, which has its options in it: nothing is trained",
                model
            ),
        ),
        (
            "--captions a",
            format!(
                "--captions: {} is a model, which has its options in it: nothing is trained",
                model
            ),
        ),
        (
            "--part",
            format!(
                "--part: {} is a model, which has its options in it: nothing is trained",
                model
            ),
        ),
        ("--pair 1,4", format!("--pair: {} has no pair 1,4", model)),
        (
            "--sample 4",
            format!(
                "--sample: serial 4 is retired, so {} has no weight of it",
                model
            ),
        ),
        (
            "--sample 99",
            format!(
                "--sample: {} lists no serial number 99: its weight is 0, or it wasn't trained on",
                model
            ),
        ),
        (
            "--sample x",
            format!(
                "--sample: {} lists no serial number x: its weight is 0, or it wasn't trained on",
                model
            ),
        ),
    ] {
        let words: Vec<&str> = ["weights"].into_iter().chain(options.split(' ')).collect();
        let (status, out, err) = whole(&[&words[..], &[&model]].concat());
        let expected = format!("altuliscia: {} (see altuliscia --help)\n", told_of);
        assert_eq!((status, out.as_str(), err), (2, "", expected));
    }
    // A model is no problem, and a cut one no model.
    for command in ["train", "check"] {
        let trouble = told(&format!("{} FILE", command), &model, "").unwrap_err();
        let told_of = format!("{}:1: the label 'svm_type' is not a whole number", model);
        assert_eq!((trouble.status(), trouble.to_string()), (3, told_of));
    }
    let cut = file(&f, "cut", b"svm_type c_svc\nkernel_type precomputed\n");
    let trouble = told("weights FILE", &cut, "").unwrap_err();
    assert_eq!(
        trouble.to_string(),
        format!("{}:2: the model ends before SV", cut)
    );
}

/// Each decision is a vote: counted by their signs they are the votes that `sort` tells, which are the library's.
#[test]
fn decisions_are_votes() {
    let f = folder("lists-decide");
    let (path, model) = (file(&f, "a", PANEL.as_bytes()), file(&f, "model", b"old"));
    // The decision of a caption without letters is minus rho; values that are 0, NaN and infinite.
    let strange = "1 0:10 1:0 2:0 3:0 4:0 5:0 6:0 7:0 8:0 9:0 10:0 11:0 12:0\n0:11 1:nan 2:0 3:0 4:0 5:0 6:0 7:0 8:0 9:0 10:0 11:0 12:inf\n";
    let held = file(&f, "held", format!("{}{}", HELD, strange).as_bytes());
    for options in [
        "-c 0.5",
        "-c 10 -e 1e-7",
        "-s 1 -n 0.1",
        "-c 1 --retired 4,8",
        "--pair 1,3",
    ] {
        told(&format!("train -q {} FILE MODEL", options), &path, &model).unwrap();
        let csv = told("decide -q --csv MODEL FILE", &held, &model).unwrap();
        let sorted = told("sort -q --votes MODEL FILE", &held, &model).unwrap();
        let names: Vec<&str> = csv
            .lines()
            .next()
            .unwrap()
            .split('"')
            .skip(1)
            .step_by(2)
            .collect();
        assert_eq!(csv.lines().count(), 12);
        for (row, told) in csv.lines().zip(sorted.lines()).skip(1) {
            let row = fields(row);
            let words: Vec<&str> = told.split_whitespace().collect();
            assert!(words[..4].contains(&row[3]));
            for (label, votes) in words.iter().filter_map(|word| word.split_once(':')) {
                let wins = names.iter().zip(&row[5..]).filter(|(name, decision)| {
                    let (first, second) = name.split_once(',').unwrap();
                    let for_first = decision.parse::<f64>().unwrap() >= 0.0;
                    label == if for_first { first } else { second }
                });
                assert_eq!(wins.count().to_string(), votes, "{} {}", options, told);
            }
        }
        assert_eq!(fields(csv.lines().nth(11).unwrap())[4], "false");
    }
}

/// Zero is the first's, as in the votes.
#[test]
fn decisions_are_told_with_every_digit() {
    let f = folder("lists-digits");
    let model = file(&f, "model", b"old");
    let small = file(&f, "small", SMALL.as_bytes());
    told("train -q FILE MODEL", &small, &model).unwrap();
    let held = file(&f, "held", b"7 0:1 1:1 2:1\n0:2 1:1 2:1.0000000000000002\n");
    let (out, err) = both("decide MODEL FILE", &held, &model).unwrap();
    let expected = "  line serial  label  sorted  7,3\n     1      1      7       7  0.0\n     2      2              3  -2.220446049250313e-16\n";
    assert_eq!(
        (out.as_str(), err.as_str()),
        (expected, "Accuracy = 100% (1/1)\n")
    );
    let json = told("decide --json MODEL FILE", &held, &model).unwrap();
    let expected = "[\n  {\"line\": 1, \"serial\": 1, \"label\": 7, \"sorted\": 7, \"finite\": true, \"decisions\": {\"7,3\": 0.0}},\n  {\"line\": 2, \"serial\": 2, \"label\": null, \"sorted\": 3, \"finite\": true, \"decisions\": {\"7,3\": -2.220446049250313e-16}}\n]\n";
    assert_eq!(json, expected);
    // LIBSVM takes any number as a serial: one is a number here, and what isn't finite a string.
    let odd = b"0:+3.0 1:1 2:1\n0:-1.5 1:1 2:1\n0:3000000000 1:1 2:1\n0:inf 1:1 2:1\n";
    let json = told("decide --json MODEL FILE", &file(&f, "odd", odd), &model).unwrap();
    let words = json
        .lines()
        .filter_map(|line| line.split("\"serial\": ").nth(1));
    let serials: Vec<&str> = words.map(|word| word.split(',').next().unwrap()).collect();
    assert_eq!(serials, ["3", "-1.5", "3000000000.0", "\"inf\""]);
    // One class.
    told("train -q -s 2 FILE MODEL", &small, &model).unwrap();
    let held = file(&f, "held", b"0:1 1:1 2:0\n0:2 1:0.5 2:0.25\n");
    let out = told("decide MODEL FILE", &held, &model).unwrap();
    let expected = "  line serial  label  sorted  class\n     1      1              1  0.0\n     2      2             -1  -0.125\n";
    assert_eq!(out, expected);
    let trouble = told("decide MODEL FILE", &file(&f, "few", b"0:1 1:1\n"), &model).unwrap_err();
    assert!(trouble
        .to_string()
        .ends_with("few:1: 1 kernel values, but the model has the serial number 2"));
}

#[test]
fn a_file_may_come_from_standard_input() {
    let f = folder("lists-input");
    let (path, model) = (file(&f, "a", SMALL.as_bytes()), file(&f, "model", b"old"));
    let said = |words: &[&str], data: &[u8]| {
        let mut command = program();
        command.args(words).stdin(Stdio::piped());
        command.stdout(Stdio::piped()).stderr(Stdio::piped());
        let mut child = command.spawn().unwrap();
        // A call that is refused reads nothing.
        let _ = child.stdin.take().unwrap().write_all(data);
        let output = child.wait_with_output().unwrap();
        let text = |bytes| String::from_utf8(bytes).unwrap();
        (
            output.status.code(),
            text(output.stdout),
            text(output.stderr),
        )
    };
    let (_, list, err) = whole(&["weights", &path]);
    assert_eq!(
        said(&["weights", "-"], SMALL.as_bytes()),
        (Some(0), list, err)
    );
    told("train -q FILE MODEL", &path, &model).unwrap();
    let written = fs::read(&model).unwrap();
    let found = said(&["train", "-q", "-", &model], SMALL.as_bytes());
    assert_eq!(found, (Some(0), String::new(), String::new()));
    assert_eq!(fs::read(&model).unwrap(), written);
    for words in [["sort", "-q", &model, "-"], ["sort", "-q", "-", &path]] {
        let data = if words[2] == "-" {
            &written[..]
        } else {
            SMALL.as_bytes()
        };
        let (_, list, _) = whole(&["sort", "-q", &model, &path]);
        assert_eq!(said(&words, data), (Some(0), list, String::new()));
    }
    let (status, out, _) = said(&["show", &model, "-"], SMALL.as_bytes());
    assert!(
        status == Some(0) && out.ends_with("\nstandard input: this is what it was trained on\n")
    );
    let (status, _, err) = said(&["check", "-"], b"7 0:1 1:one\n");
    let told_of = "altuliscia: standard input:1: '1:one' stands where 1:number should\n";
    assert_eq!((status, err.as_str()), (Some(3), told_of));
    assert_eq!(said(&["sort", "-", "-"], b"").0, Some(2));
}

/// Where standard output is closed, what can't be told is an error; what has nothing to tell isn't.
#[cfg(target_os = "linux")]
#[test]
fn a_closed_standard_output_is_an_error() {
    let f = folder("lists-closed");
    let (path, model) = (file(&f, "a", SMALL.as_bytes()), file(&f, "model", b"old"));
    let program = env!("CARGO_BIN_EXE_altuliscia");
    let said = |words: &str| {
        let line = format!("{} {} \"$1\" \"$2\" >&-", program, words);
        let mut command = Command::new("sh");
        command.args(["-c", &line, "sh", &path, &model]);
        let output = command.output().unwrap();
        (
            output.status.code(),
            String::from_utf8(output.stderr).unwrap(),
        )
    };
    if std::env::var_os("CARGO_TARGET_X86_64_UNKNOWN_LINUX_GNU_RUNNER").is_some() {
        return;
    }
    let told_of = "altuliscia: not all was written to standard output: it is closed";
    assert_eq!(said("--help"), (Some(4), format!("{}\n", told_of)));
    // A model that was written is named; one that isn't to be released isn't written.
    assert_eq!(said("train -c 1e-16"), (Some(4), format!("{}\n", told_of)));
    assert_eq!(fs::read(&model).unwrap(), b"old");
    let written = format!("{}; {} was written\n", told_of, model);
    assert_eq!(said("train"), (Some(4), written));
    assert_ne!(fs::read(&model).unwrap(), b"old");
    assert_eq!(said("train -q"), (Some(0), String::new()));
}
