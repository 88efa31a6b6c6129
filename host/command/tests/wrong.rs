//! What is wrong, or worse than it looks, and is told.
mod common;
mod whole;

use common::{both, file, folder, own, told, SMALL};
use std::fs;
use whole::whole;

/// The four that read a problem, each with its own words.
const COMMANDS: [&[&str]; 4] = [
    &["train"],
    &["weights"],
    &["check"],
    &["trail", "--sample", "1"],
];

/// What a command tells with these words more; a model goes nowhere.
fn done(command: &[&str], words: &[&str]) -> (u8, String, String) {
    let model = match command[0] {
        "train" => &["/dev/null"][..],
        _ => &[],
    };
    whole(&[command, words, model].concat())
}

#[test]
fn a_serial_number_of_two_lines_is_a_fault() {
    let f = folder("wrong-twice");
    // Of three labels, too, and where the two lines are of another pair than the one that is asked for.
    let two = "7 0:1 1:1 2:0 3:0\n3 0:2 1:0 2:1 3:0\n7 0:1 1:0 2:0 3:1\n";
    let three = two.replace("\n7", "\n9");
    for (text, more) in [
        (two.to_string(), &[][..]),
        (two.to_string(), &["--part"]),
        (three.clone(), &["--pair", "7,3"]),
        (three, &["--pair", "3,9", "--part"]),
    ] {
        let path = file(&f, "a", text.as_bytes());
        let line = format!("{}:3: the serial number 1 is that of line 1, too", path);
        for command in COMMANDS {
            let (status, out, err) = done(command, &[more, &[&path]].concat());
            assert_eq!(status, 3, "{:?} {:?}", command, more);
            let place = if command[0] == "check" { &out } else { &err };
            assert!(place.contains(&line), "{:?} {}", command, place);
        }
    }
    let path = file(&f, "b", two.replace("7 0:1 1:0", "9 0:1 1:0").as_bytes());
    let model = file(&f, "model", b"old");
    let trouble = told("train FILE MODEL", &path, &model).unwrap_err();
    assert_eq!(trouble.status(), 3);
    assert_eq!(fs::read(&model).unwrap(), b"old");
}

#[test]
fn a_serial_number_without_a_line_is_a_fault() {
    let f = folder("wrong-part");
    let path = file(&f, "a", SMALL.replace('\n', " 3:9\n").as_bytes());
    let line = format!(
        "{}: 2 lines of 3 kernel values each: the serial number 3 has no line (--part takes a file that has some of the samples only)",
        path
    );
    for command in COMMANDS {
        let (status, out, err) = done(command, &[&path]);
        let place = if command[0] == "check" { &out } else { &err };
        assert!(status == 3 && place.contains(&line), "{}", place);
        assert_eq!(done(command, &["--part", &path]).0, 0, "{:?}", command);
    }
}

/// The products of six points in the plane, on which r comes out below 0 with nu 0.2.
const TURNED: &str = "\
-1 0:1 1:0.010000000000000002 2:-0.03 3:-0.020000000000000004 4:0.020000000000000004 5:0.0 6:0.03
+1 0:2 1:-0.03 2:0.1 3:0.07 4:-0.09 5:0.010000000000000002 6:-0.07999999999999999
-1 0:3 1:-0.020000000000000004 2:0.07 3:0.05000000000000001 4:-0.07 5:0.010000000000000002 6:-0.049999999999999996
+1 0:4 1:0.020000000000000004 2:-0.09 3:-0.07 4:0.13 5:-0.03 6:0.03
-1 0:5 1:0.0 2:0.010000000000000002 3:0.010000000000000002 4:-0.03 5:0.010000000000000002 6:0.010000000000000002
+1 0:6 1:0.03 2:-0.07999999999999999 3:-0.049999999999999996 4:0.03 5:0.010000000000000002 6:0.1
";

/// A problem and options, and why what is trained of them isn't to be released.
fn reasons() -> Vec<(Vec<u8>, &'static str, &'static str)> {
    let zeros = own(4, &[0.0; 16], &[1, 1, 0, 0]);
    let four = [
        4., -4., 3., -3., -4., 3., 2., -2., 3., 2., 4., 0., -3., -2., 0., 5.,
    ];
    let tiny = [
        3., 1., 0., 0., 1., 2., 0., 0., 0., 0., 2., 1., 0., 0., 1., 3.,
    ];
    let tiny = tiny.map(|x| x * 1e-309);
    let small = SMALL.as_bytes().to_vec();
    vec![
        (
            small.clone(),
            "--budget 1",
            "the budget ran out, all 1 of it",
        ),
        (
            small.clone(),
            "-s 1 -n 1",
            "r, by which the weights are divided, is inf",
        ),
        (
            zeros,
            "-s 1 -n 0.25",
            "r, by which the weights are divided, is 0.0",
        ),
        (
            own(4, &four, &[1, 0, 1, 1]),
            "-e 0 -h 1 --budget 100",
            "rho is nan, so everything is sorted into one and the same class; train with -h 0",
        ),
        (
            TURNED.as_bytes().to_vec(),
            "-s 1 -n 0.2",
            "r, by which the weights are divided, is -1.734723475976807e-18: each weight has the other class's sign",
        ),
        (
            own(4, &tiny, &[1, 1, 0, 0]),
            "-s 1 -n 0.3",
            "r, by which the weights are divided, is 1.5e-309, so small that 1/r isn't finite",
        ),
        (small, "-c 1e-14", "there is no support vector"),
    ]
}

/// Of each reason: what is told, and that no model is written unless that is asked for.
#[test]
fn what_is_not_to_be_released_has_status_6() {
    let f = folder("wrong-unfit");
    for (data, options, why) in reasons() {
        let (path, model) = (file(&f, "file", &data), f.join("model"));
        let model = model.to_str().unwrap();
        let _ = fs::remove_file(model);
        let options: Vec<&str> = options.split(' ').collect();
        let train = [&["train"][..], &options, &[&path, model]].concat();
        let told = |rest: &str| format!("altuliscia: not to be released: {}{}\n", why, rest);
        let (status, out, err) = whole(&train);
        assert!(status == 6 && out.contains("exit reason: "), "{}", err);
        let end = told("; no model was written (--write-anyway writes it)");
        assert!(err.ends_with(&end), "{}", err);
        assert!(!f.join("model").exists());
        let (status, _, err) = whole(&[&train[..], &["--write-anyway"]].concat());
        let end = told(&format!("; {} was written all the same", model));
        assert!(status == 6 && err.ends_with(&end), "{}", err);
        says_so(model, why);
        let (status, out, err) = whole(&[&["weights"][..], &options, &[&path]].concat());
        assert!(status == 6 && err.ends_with(&told("")), "{}", err);
        assert!(out.starts_with("sample serial "));
        if !options.contains(&"-h") {
            let words = [&["trail", "--sample", "1"][..], &options, &[&path]].concat();
            let (status, out, err) = whole(&words);
            assert!(status == 6 && err.ends_with(&told("")), "{}", err);
            assert!(out.starts_with("serial 1, sample 0"));
        }
    }
}

/// A model says itself why it isn't to be released, to whoever reads it.
fn says_so(model: &str, why: &str) {
    let written = fs::read_to_string(model).unwrap();
    assert!(written.contains(&format!("\n# release no: {}\n", why)));
    let isnt = format!("{} isn't to be released: {}\n", model, why);
    for words in [&["show", model][..], &["weights", model]] {
        let (status, _, err) = whole(words);
        assert!(status == 6 && err.ends_with(&isnt), "{}", err);
    }
    let held = format!("{}.held", model);
    fs::write(&held, "0:1 1:1 2:0 3:0 4:0 5:0 6:0\n").unwrap();
    for command in ["sort", "decide"] {
        let (status, _, err) = whole(&[command, "-q", model, &held]);
        let rest = err.strip_prefix(&format!("note: {}", isnt));
        assert!(
            status == 0 && [Some(""), Some(EMPTY)].contains(&rest),
            "{}",
            err
        );
    }
}

/// Where what isn't finite is the model's.
const EMPTY: &str = "note: a decision isn't finite, though the kernel values are, and so says nothing, of 1 of the captions, the first in line 1\n";

/// A model of svm-train has no record, but its rho and its lines tell.
#[test]
fn what_a_model_shows_by_itself_is_told_where_it_is_sorted_by() {
    let f = folder("wrong-rho");
    let head = "svm_type c_svc\nkernel_type precomputed\nnr_class 3\ntotal_sv 1\nrho 0 nan inf\nlabel 7 3 9\nnr_sv 1 0 0\nSV\n1 1 0:1\n";
    let model = file(&f, "model", head.as_bytes());
    let held = file(&f, "held", b"7 0:1 1:1\n");
    let note = format!(
        "note: {} isn't to be released: the rho of the pair 7,9 is nan\n",
        model
    );
    let (_, err) = both("sort -q MODEL FILE", &held, &model).unwrap();
    assert_eq!(err, note + EMPTY);
    let none = head.replace("total_sv 1", "total_sv 0");
    let none = none
        .replace("nr_sv 1", "nr_sv 0")
        .replace("rho 0 nan inf", "rho 0 0 0");
    let model = file(&f, "model", none.replace("1 1 0:1\n", "").as_bytes());
    let (_, err) = both("sort -q MODEL FILE", &held, &model).unwrap();
    let note = format!("note: {} isn't to be released: it lists no weight\n", model);
    assert_eq!(err, note);
    // Of a file that had a serial number twice, which svm-train takes, and so did altuliscia up to 1.5.0.
    let twice = head.replace("total_sv 1", "total_sv 3");
    let twice = twice.replace("nr_sv 1 0 0", "nr_sv 1 2 0");
    let twice = twice.replace("rho 0 nan inf", "rho 0 0 0") + "-1 1 0:4\n-1 1 0:1\n";
    let model = file(&f, "model", twice.as_bytes());
    let held = file(&f, "held", b"7 0:1 1:1 2:0 3:0 4:0\n");
    let (_, err) = both("sort -q MODEL FILE", &held, &model).unwrap();
    let note = format!(
        "note: {} isn't to be released: it has the serial number 1 twice\n",
        model
    );
    assert_eq!(err, note);
    assert_eq!(whole(&["show", &model]).0, 6);
}

#[test]
fn a_model_with_a_weight_that_is_not_finite_is_not_to_be_released() {
    let f = folder("wrong-weight");
    let text = "svm_type nu_svc\nkernel_type precomputed\nnr_class 3\ntotal_sv 2\nrho 0 0 0\nlabel 7 3 9\nnr_sv 1 1 0\nSV\n1 1 0:1\n-1 inf 0:2\n";
    let held = file(&f, "held", b"7 0:1 1:1 2:1\n");
    for word in ["inf", "-inf", "nan"] {
        let model = file(&f, "model", text.replace("inf", word).as_bytes());
        let isnt = format!(
            "{} isn't to be released: a weight of serial 2 is {}\n",
            model, word
        );
        for command in ["show", "weights"] {
            let (status, _, err) = whole(&[command, &model]);
            assert!(status == 6 && err.ends_with(&isnt), "{}", err);
        }
        for command in ["sort", "decide"] {
            let (status, _, err) = whole(&[command, "-q", &model, &held]);
            assert_eq!((status, err), (0, format!("note: {}{}", isnt, EMPTY)));
        }
    }
    let model = file(&f, "model", text.replace("inf", "1").as_bytes());
    assert_eq!(whole(&["show", &model]).0, 0);
}

#[test]
fn a_nu_that_can_not_be_met_is_a_fault_of_the_words() {
    let f = folder("wrong-nu");
    let line = |label: i32, k: usize| {
        let values: String = (1..=5)
            .map(|j| format!(" {}:{}", j, u8::from(j == k)))
            .collect();
        format!("{} 0:{}{}\n", label, k, values)
    };
    let text = |labels: [i32; 5]| -> String { (1..=5).map(|k| line(labels[k - 1], k)).collect() };
    let path = file(&f, "a", text([4, 2, 2, 2, 2]).as_bytes());
    let fault = "-n 0.5 can't be met: half of it times 5 samples is above 1, the number of those of label 4 (see altuliscia --help)";
    for command in COMMANDS {
        let (status, out, err) = done(command, &["-s", "1", &path]);
        let place = if command[0] == "check" { &out } else { &err };
        assert!(status == 2 && place.contains(fault), "{}", place);
        // 2*1/5 can be.
        let (status, ..) = done(command, &["-s1", "-n0.4", &path]);
        assert!([0, 6].contains(&status));
    }
    // The rarer label may be the second.
    let turned = file(&f, "b", text([2, 2, 4, 2, 2]).as_bytes());
    let (_, out, err) = whole(&["check", "-s1", &turned]);
    assert!(out.starts_with(fault), "{}", out);
    assert_eq!(err, "altuliscia: this problem would not be trained\n");
    // Of several, each pair that meets it; one class has no such rule, nor has a cost.
    let three = file(&f, "c", text([4, 2, 2, 2, 9]).as_bytes());
    let (status, out, _) = whole(&["check", "-s1", "-n.75", &three]);
    let told = |label, pair| {
        format!("-n 0.75 can't be met: half of it times 4 samples is above 1, the number of those of label {}, in the pair {} (see altuliscia --help)", label, pair)
    };
    let expected = [
        told(4, "4 2"),
        told(9, "2 9"),
        format!("{}: 5 samples of 3 labels, 2 faults", three),
    ];
    assert_eq!(out.lines().collect::<Vec<_>>(), expected);
    assert_eq!(status, 2);
    assert_eq!(whole(&["train", "-s1", "-n.75", &three, "/dev/null"]).0, 2);
    assert_eq!(whole(&["check", "-s2", "-n.75", &three]).0, 0);
    assert_eq!(whole(&["check", &three]).0, 0);
}

#[test]
fn a_kernel_that_is_not_symmetric_gets_a_note() {
    let f = folder("wrong-sides");
    let text = "7 0:2 1:0 2:1 3:5\n3 0:1 1:1 2:0.25 3:0\n7 0:3 1:0 2:5 3:9\n";
    let path = file(&f, "a", text.as_bytes());
    let note = "note: the kernel isn't symmetric: serial 2 has 0.0 with serial 1, but serial 1 has 0.25 with serial 2 (places that differ: 1, none by more)\n";
    for command in COMMANDS {
        let (status, _, err) = done(command, &["-q", &path]);
        assert_eq!((status, err.as_str()), (0, note), "{:?}", command);
    }
    // What is retired has no say; with three labels it is told once, with its pair.
    assert_eq!(whole(&["check", &path, "--retired", "2"]).2, "");
    let three = file(&f, "b", text.replace("7 0:3", "9 0:3").as_bytes());
    let (_, _, err) = whole(&["train", "-q", &three, "/dev/null"]);
    assert_eq!(err, format!("{}, in the pair 7 3\n", note.trim_end()));
    let good = file(&f, "c", text.replace("0.25", "0").as_bytes());
    assert_eq!(whole(&["check", &good]).2, "");
}

#[test]
fn costs_that_differ_get_a_note() {
    let f = folder("wrong-costs");
    let path = file(&f, "a", SMALL.as_bytes());
    let note = "note: the costs differ: label 7 has 0.5, label 3 has 1.0; it isn't promised then that every weight lies in 0..ceiling\n";
    for command in COMMANDS {
        let (_, _, err) = done(command, &["-q", "-w7", "0.5", &path]);
        assert_eq!(err, note, "{:?}", command);
    }
    // The same factor for both is none.
    assert_eq!(whole(&["check", "-w7", "2", "-w3", "2", &path]).2, "");
    let idle = "note: -w7 has no say with -s 1\n";
    assert_eq!(whole(&["check", "-s1", "-w7", "2", &path]).2, idle);
}

/// A value beside a serial number of the model has a say; any other may be what it likes.
#[test]
fn a_value_that_is_not_finite_is_marked() {
    let f = folder("wrong-wild");
    let model = file(&f, "model", b"old");
    let train = file(&f, "small", SMALL.as_bytes());
    told("train -q FILE MODEL", &train, &model).unwrap();
    let text = "7 0:1 1:1 2:0 3:nan\n7 0:2 1:nan 2:inf\n3 0:3 1:0 2:-inf\n";
    let path = file(&f, "held", text.as_bytes());
    let note = "note: a kernel value that isn't finite has a say in 2 of the captions, the first in line 2\n";
    let (out, err) = both("sort -q MODEL FILE", &path, &model).unwrap();
    let lines: Vec<&str> = out.lines().skip(1).collect();
    let expected = [
        "     1      1      7       7      1          3      0",
        "     2      2      7       3      1          7      0  K(1) is nan",
        "     3      3      3       7      1          3      0  K(2) is -inf",
    ];
    assert_eq!((lines, err.as_str()), (expected.to_vec(), note));
    let (out, err) = both("sort -q --labels MODEL FILE", &path, &model).unwrap();
    assert_eq!((out.as_str(), err.as_str()), ("7\n3\n7\n", note));
    let (out, err) = both("decide -q MODEL FILE", &path, &model).unwrap();
    let lines: Vec<&str> = out.lines().collect();
    let expected = [
        "  line serial  label  sorted  7,3",
        "     1      1      7       7  1.0",
        "     2      2      7       3  nan                       K(1) is nan",
        "     3      3      3       7  inf                       K(2) is -inf",
    ];
    assert_eq!((lines, err.as_str()), (expected.to_vec(), note));
}

/// Values that are finite, and a sum of them that isn't.
#[test]
fn a_decision_that_is_not_finite_is_marked() {
    let f = folder("wrong-empty");
    let text = "svm_type c_svc\nkernel_type precomputed\nnr_class 2\ntotal_sv 2\nrho 0\nlabel 7 3\nnr_sv 1 1\nSV\n10 0:1\n-10 0:2\n";
    let model = file(&f, "model", text.as_bytes());
    let text = "7 0:1 1:1 2:0\n7 0:2 1:1e308 2:1e308\n3 0:3 1:-1e308 2:0\n7 0:4 1:nan 2:0\n";
    let path = file(&f, "held", text.as_bytes());
    let notes = "note: a kernel value that isn't finite has a say in 1 of the captions, the first in line 4
note: a decision isn't finite, though the kernel values are, and so says nothing, of 2 of the captions, the first in line 2\n";
    let (out, err) = both("sort -q MODEL FILE", &path, &model).unwrap();
    let lines: Vec<&str> = out.lines().skip(1).collect();
    let expected = [
        "     1      1      7       7      1          3      0",
        "     2      2      7       3      1          7      0  the decision of 7,3 is nan",
        "     3      3      3       3      1          7      0  the decision of 7,3 is -inf",
        "     4      4      7       3      1          7      0  K(1) is nan",
    ];
    assert_eq!((lines, err.as_str()), (expected.to_vec(), notes));
    let (out, err) = both("decide -q --csv MODEL FILE", &path, &model).unwrap();
    let lines: Vec<&str> = out.lines().skip(1).collect();
    let expected = [
        "1,1,7,7,true,10.0",
        "2,2,7,3,false,nan",
        "3,3,3,3,false,-inf",
        "4,4,7,3,false,nan",
    ];
    assert_eq!((lines, err.as_str()), (expected.to_vec(), notes));
    let (out, _) = both("decide -q MODEL FILE", &path, &model).unwrap();
    assert!(out.contains("3  nan                       the decision of 7,3 is nan\n"));
    // Of one class there is no pair.
    let text =
        "svm_type one_class\nkernel_type precomputed\nnr_class 2\ntotal_sv 1\nrho 0\nSV\n10 0:1\n";
    let model = file(&f, "model", text.as_bytes());
    let path = file(&f, "held", b"0:1 1:1e308\n");
    let (out, err) = both("decide -q MODEL FILE", &path, &model).unwrap();
    assert!(
        out.ends_with("  the decision is inf\n") && err == EMPTY,
        "{}",
        err
    );
}

/// Such a caption is sorted wrongly in any case, and counts so in the accuracy.
#[test]
fn a_label_that_the_model_has_not_is_told() {
    let f = folder("wrong-label");
    let model = file(&f, "model", b"old");
    let train = file(&f, "small", SMALL.as_bytes());
    told("train -q FILE MODEL", &train, &model).unwrap();
    let text = "7 0:1 1:1 2:0\n0:2 1:1 2:0\n-1 0:3 1:0 2:1\n1 0:4 1:1 2:0\n";
    let path = file(&f, "held", text.as_bytes());
    let note = format!(
        "note: 2 of the captions have a label that {} hasn't, the first -1 in line 3\n",
        model
    );
    for line in ["sort -q MODEL FILE", "decide -q MODEL FILE"] {
        let (_, err) = both(line, &path, &model).unwrap();
        assert_eq!(err, note);
    }
    told("train -q -s 2 FILE MODEL", &train, &model).unwrap();
    let (_, err) = both("decide -q MODEL FILE", &path, &model).unwrap();
    assert_eq!(err, "");
}

/// No problem is as large, and a device may never end. The file takes no room.
#[test]
fn what_is_too_large_is_not_read() {
    let f = folder("wrong-large");
    let path = file(&f, "a", b"");
    let large = fs::OpenOptions::new().write(true).open(&path).unwrap();
    large.set_len((1 << 30) + 1).unwrap();
    let trouble = told("check FILE", &path, "").unwrap_err();
    let told_of = format!(
        "{}: more than 1073741824 bytes, the most that are read",
        path
    );
    assert_eq!((trouble.status(), trouble.to_string()), (3, told_of));
    let help = told("check --help", "", "").unwrap();
    assert!(help.contains("No file is read that has more than 2^30 bytes."));
}

/// They are taken, as svm-train takes them, and a note says that they do nothing.
#[test]
fn options_without_a_say_are_noted() {
    let f = folder("wrong-idle");
    let path = file(&f, "a", SMALL.as_bytes());
    for (options, notes) in [
        ("-c 2 -w7 1 -e 0.1 -s 0", &[][..]),
        ("-s 1 -n 0.5", &[]),
        ("-n 0.25", &["-n has no say with -s 0"]),
        (
            "-s 1 -c 2 -w7 3",
            &["-c has no say with -s 1", "-w7 has no say with -s 1"],
        ),
        ("-s 2 -c 2 -c 3", &["-c has no say with -s 2"]),
        (
            "-c 2 -c 3 -q -q",
            &["-c is there more than once: the last one counts"],
        ),
        (
            "-w7 2 -w7 0.5",
            &["-w7 is there more than once: each of them multiplies the cost"],
        ),
        (
            "-e 1 --budget 9 -e 2",
            &["-e is there more than once: the last one counts"],
        ),
    ] {
        let notes: String = notes.iter().map(|n| format!("note: {}\n", n)).collect();
        for (command, model) in [("check", ""), ("train -q", "MODEL")] {
            let line = format!("{} {} FILE {}", command, options, model);
            let (_, err) = both(&line, &path, "/dev/null").unwrap();
            assert_eq!(err, notes, "{}", options);
        }
    }
}
