//! What a model records of its training, and what reads it back.
mod bare;
mod common;
mod over;
mod whole;

use bare::bare;
use common::{both, file, folder, own, told, SMALL};
use over::OVER;
use std::fs;
use whole::whole;

const PANEL: &str = include_str!("../../problems/panel.train");

/// The lines behind the last weight, without the sum.
fn record(model: &str) -> Vec<String> {
    let text = fs::read_to_string(model).unwrap();
    let lines = text.lines().skip_while(|l| !l.starts_with('#'));
    let lines: Vec<String> = lines.map(str::to_string).collect();
    let (sum, above) = lines.split_last().unwrap();
    assert!(sum.starts_with("# sum ") && above.len() >= 6);
    above.to_vec()
}

/// The hash of the small problem was computed elsewhere, over the bytes that `show --help` names.
#[test]
fn a_model_records_its_training() {
    let f = folder("record-lines");
    let (path, model) = (file(&f, "a", SMALL.as_bytes()), file(&f, "model", b"old"));
    told("train -q FILE MODEL", &path, &model).unwrap();
    let version = concat!("# altuliscia ", env!("CARGO_PKG_VERSION"));
    let samples = "# samples 2 8c35e0d64b12e4b4ecea20910a3367bd867b78620dfb6d9d1a0cfbb8db52b1d7";
    let expected = [
        version,
        "# options -s 0 -c 1.0 -e 0.001 -h 0 --budget 10000000 --floor 1e-10",
        "# retired none",
        "# exit threshold",
        "# release yes",
        samples,
    ];
    assert_eq!(record(&model), expected);
    // Only options that have a say stand there.
    for (options, line) in [
        (
            "-s 1 -n 0.5 -c 9 -w7 2 -h 1",
            "# options -s 1 -n 0.5 -e 0.001 -h 1 --budget 10000000 --floor 1e-10",
        ),
        (
            "-c 2 -w3 0.25 -w7 4 -w3 2 -e 1e-7 --budget 77 --floor 1e-12",
            "# options -s 0 -c 2.0 -w3 0.25 -w7 4.0 -w3 2.0 -e 1e-7 -h 0 --budget 77 --floor 1e-12",
        ),
        (
            "-s 2 -n 0.75",
            "# options -s 2 -n 0.75 -e 0.001 -h 0 --budget 10000000 --floor 1e-10",
        ),
    ] {
        told(&format!("train -q {} FILE MODEL", options), &path, &model).unwrap();
        assert_eq!(record(&model)[1], line);
        // Trained again with what it records it is the same model.
        let before = fs::read_to_string(&model).unwrap();
        let options = line.strip_prefix("# options ").unwrap();
        told(&format!("train -q {} FILE MODEL", options), &path, &model).unwrap();
        assert_eq!(fs::read_to_string(&model).unwrap(), before);
    }
    // One class has no labels, so its hash is another one.
    assert_ne!(record(&model)[5], samples);
}

#[test]
fn a_model_of_several_records_every_pair() {
    let f = folder("record-several");
    let model = file(&f, "model", b"old");
    let panel = file(&f, "panel", PANEL.as_bytes());
    let unwritten = [
        "train",
        "-q",
        "--budget=30",
        "--retired",
        "7,4",
        &panel,
        &model,
    ];
    let (status, _, err) = whole(&unwritten);
    let still = format!(
        "; no model was written (--write-anyway writes it); the older {} still stands\n",
        model
    );
    assert!(status == 6 && err.ends_with(&still), "{}", err);
    assert_eq!(fs::read(&model).unwrap(), b"old");
    let words = [
        "train",
        "-q",
        "--write-anyway",
        "--budget=30",
        "--retired",
        "7,4",
        &panel,
        &model,
    ];
    assert_eq!(whole(&words).0, 6);
    let lines = record(&model);
    assert_eq!(lines[2], "# retired 4,7");
    assert_eq!(lines[3], "# exit threshold threshold iterations");
    assert_eq!(
        lines[4],
        "# release no: pair 2 3: the budget ran out, all 30 of it"
    );
    assert!(lines[5].starts_with("# samples 12 "));
}

#[test]
fn a_model_is_shown_in_words() {
    let f = folder("record-show");
    let (path, model) = (file(&f, "a", PANEL.as_bytes()), file(&f, "model", b"old"));
    told("train -q -c 0.5 --retired 4 FILE MODEL", &path, &model).unwrap();
    let text = told("show MODEL", "", &model).unwrap();
    let hash = record(&model)[5].split(' ').nth(3).unwrap().to_string();
    let lines: Vec<&str> = text.lines().collect();
    let version = format!("written by: altuliscia {}", env!("CARGO_PKG_VERSION"));
    let samples = format!("trained on: 12 samples, sha256 {}", hash);
    assert_eq!(lines[0], "model: of the labels 1 2 3, with a cost (c_svc)");
    assert_eq!(lines[1], "samples with a weight: 11");
    assert!(lines[2].starts_with("rho of 1,2: ") && lines[4].starts_with("rho of 2,3: "));
    let rest = [
        &version,
        "options: -s 0 -c 0.5 -e 0.001 -h 0 --budget 10000000 --floor 1e-10",
        "retired: 4",
        "exit reason: threshold",
        "to be released: nothing speaks against it",
        &samples,
    ];
    assert_eq!(lines[5..], rest);
    // A model of svm-train, or of an older version.
    let text = fs::read_to_string(&model).unwrap();
    let old = file(&f, "old", bare(&text).as_bytes());
    let (status, out, _) = whole(&["show", &old]);
    let none = "record: none, so its options and what it was trained on aren't known\n";
    assert!(status == 0 && out.ends_with(none), "{}", out);
    let trouble = told("show MODEL FILE", &path, &old).unwrap_err();
    let told_of = format!("{} has no record of what it was trained on", old);
    assert_eq!((trouble.status(), trouble.to_string()), (7, told_of));
    // A budget that ran out in one pair of three.
    let words = [
        "train",
        "-q",
        "--write-anyway",
        "--budget=30",
        &path,
        &model,
    ];
    assert_eq!(whole(&words).0, 6);
    let (status, out, _) = whole(&["show", &model]);
    let spent = "exit reason: iterations, of 2,3; threshold, of the others\nto be released: no: pair 2 3: the budget ran out, all 30 of it\n";
    assert!(status == 6 && out.contains(spent), "{}", out);
}

const SHRINKING: &str = "shrinking is on: with -h 1 'threshold' speaks only of the samples still active, and obj and rho needn't be those of these weights; train with -h 0";

/// What was told of a training is kept by its model, and told of that, too.
#[test]
fn a_model_keeps_the_cautions_of_its_training() {
    let f = folder("record-cautions");
    let model = file(&f, "model", b"old");
    let costs = "the costs differ: label 1 has 1.0, label -1 has 2.0; it isn't promised then that every weight lies in 0..ceiling";
    let above = "a weight is above its ceiling: that of serial 4";
    let skew = "the kernel isn't symmetric: serial 1 has 0.0 with serial 2, but serial 2 has 0.5 with serial 1 (places that differ: 1, none by more)";
    let panel = "the costs differ: label 1 has 2.0, label 2 has 1.0; it isn't promised then that every weight lies in 0..ceiling, in the pair 1 2";
    // A third language, which is like itself alone.
    let third = "5 0:11 1:0 2:0 3:0 4:0 5:0 6:0 7:0 8:0 9:0 10:0 11:1\n";
    let third = OVER.replace('\n', " 11:0\n") + third;
    let [of_costs, of_above] = [costs, above].map(|told| format!("{}, in the pair 1 -1", told));
    for (options, data, cautions) in [
        ("-w-1 2", third, &[&of_costs[..], &of_above][..]),
        ("", SMALL.to_string(), &[]),
        ("-h 1", SMALL.to_string(), &[SHRINKING]),
        ("-w-1 2", OVER.to_string(), &[costs, above]),
        ("", SMALL.replace("1:0 ", "1:0.5 "), &[skew]),
        ("-h 1 -w1 2", PANEL.to_string(), &[panel, SHRINKING]),
    ] {
        let path = file(&f, "a", data.as_bytes());
        let line = format!("train -q {} FILE MODEL", options);
        let (_, err) = both(&line, &path, &model).unwrap();
        let lines = |start: &str| -> Vec<String> {
            cautions.iter().map(|c| format!("{}{}", start, c)).collect()
        };
        for note in lines("note: ") {
            assert!(err.contains(&(note + "\n")), "{}", err);
        }
        assert_eq!(record(&model)[6..], lines("# caution "));
        let shown = told("show MODEL", "", &model).unwrap();
        let kept: Vec<&str> = shown.lines().filter(|l| l.starts_with("caution")).collect();
        assert_eq!(kept, lines("caution: "));
        let silent = shown.contains("to be released: nothing speaks against it\n");
        assert_eq!(silent, cautions.is_empty());
        assert!(silent || shown.contains("to be released: with caution, see below\n"));
        let quoted: Vec<String> = cautions.iter().map(|c| format!("{:?}", c)).collect();
        let field = format!("  \"cautions\": [{}],\n", quoted.join(", "));
        let json = told("weights --json MODEL", "", &model).unwrap();
        assert!(json.contains(&field), "{}", json);
        // Of several languages no list is made of a file.
        if !data.contains("5 0:11") && data != PANEL {
            let line = format!("weights --json {} FILE", options);
            assert!(told(&line, &path, "").unwrap().contains(&field));
        }
        let (_, err) = both(&format!("check {} FILE", options), &path, "").unwrap();
        let after = cautions.iter().any(|told| told.starts_with(above));
        assert_eq!(err.lines().count(), cautions.len() - usize::from(after));
        // svm-train's model says nothing of it.
        let text = fs::read_to_string(&model).unwrap();
        let old = file(&f, "old", bare(&text).as_bytes());
        let json = told("weights --json MODEL", "", &old).unwrap();
        assert!(json.contains("  \"cautions\": null,\n"));
    }
}

/// Whether `show` says that a model was trained on a file.
fn agrees(model: &str, file: &str) -> bool {
    let (status, out, err) = whole(&["show", model, file]);
    let last = out.lines().last().unwrap_or_default();
    let said = last == format!("{}: this is what it was trained on", file)
        || last == format!("{}: its 8 samples of the labels 1 and 3 are what it was trained on, and no others of it", file);
    assert_eq!(said, status == 0, "{}", out);
    assert!(status == 0 || status == 7 && !err.is_empty(), "{}", err);
    said
}

/// It hangs on every number of the file, and on no name of it.
#[test]
fn a_model_is_compared_with_a_file() {
    let f = folder("record-compared");
    let (path, model) = (file(&f, "a", SMALL.as_bytes()), file(&f, "model", b"old"));
    told("train -q FILE MODEL", &path, &model).unwrap();
    assert!(agrees(&model, &path));
    let same = SMALL.replace("1:1", "1:1.0");
    assert!(agrees(&model, &file(&f, "b", same.as_bytes())));
    for (from, to) in [
        ("2:1\n", "2:1.0000000000000002\n"),
        ("7 0:1 1:1 2:0\n", "7 0:1 1:1 2:-0\n"),
        ("7 0:1", "8 0:1"),
        (
            "7 0:1 1:1 2:0\n3 0:2 1:0 2:1",
            "3 0:2 1:0 2:1\n7 0:1 1:1 2:0",
        ),
        (
            "7 0:1 1:1 2:0\n3 0:2 1:0 2:1",
            "7 0:2 1:0 2:1\n3 0:1 1:1 2:0",
        ),
    ] {
        assert_eq!(SMALL.matches(from).count(), 1, "{}", from);
        let other = file(&f, "b", SMALL.replace(from, to).as_bytes());
        assert!(!agrees(&model, &other), "{}", to);
    }
    let trouble = told("show MODEL no-such-file", "", &model).unwrap_err();
    assert_eq!(trouble.status(), 3);
}

#[test]
fn a_model_of_other_classes_is_compared_with_a_file() {
    let f = folder("record-classes");
    let model = file(&f, "model", b"old");
    // Bytes are the same samples, where the labels are called 1 and 0.
    let text = SMALL.replace("7 0", "1 0").replace("3 0", "0 0");
    let text = file(&f, "text", text.as_bytes());
    told("train -q FILE MODEL", &text, &model).unwrap();
    for (labels, same) in [([1, 0], true), ([0, 1], false)] {
        let bytes = file(&f, "bytes", &own(2, &[1.0, 0.0, 0.0, 1.0], &labels));
        assert_eq!(agrees(&model, &bytes), same);
    }
    // Of a pair: the file that it was taken from. The retired are the model's to say.
    let panel = file(&f, "panel", PANEL.as_bytes());
    for options in ["--pair 3,1 --retired 4", "-c 2", "-s 2"] {
        told(&format!("train -q {} FILE MODEL", options), &panel, &model).unwrap();
        assert!(
            agrees(&model, &panel) && !agrees(&model, &text),
            "{}",
            options
        );
        // A pair is of some of the samples only.
        let shown = told("show MODEL FILE", &panel, &model).unwrap();
        let flatly = shown.ends_with(": this is what it was trained on\n");
        assert_eq!(flatly, !options.contains("--pair"), "{}", shown);
        let other = PANEL.replace("1 0:1 1:6", "1 0:1 1:7");
        assert!(!agrees(&model, &file(&f, "other", other.as_bytes())));
    }
}

/// Whatever byte is changed, and wherever the model is cut, it is noticed; but for a cut that leaves a whole model without a record.
#[test]
fn a_damaged_model_is_refused() {
    let f = folder("record-damaged");
    let (path, model) = (file(&f, "a", SMALL.as_bytes()), file(&f, "model", b"old"));
    told("train -q FILE MODEL", &path, &model).unwrap();
    let text = fs::read_to_string(&model).unwrap();
    let status = |data: &[u8]| {
        let model = file(&f, "other", data);
        let statuses = [
            &["sort", &model, &path][..],
            &["decide", &model, &path],
            &["show", &model],
        ];
        let statuses = statuses.map(|words| whole(words).0);
        assert!(statuses.iter().all(|s| *s == statuses[0]), "{:?}", statuses);
        statuses[0]
    };
    assert_eq!(status(text.as_bytes()), 0);
    for k in 0..text.len() {
        let mut data = text.clone().into_bytes();
        data[k] = if data[k] == b'2' { b'3' } else { b'2' };
        assert_eq!(status(&data), 3, "{}", k);
        let whole = k == bare(&text).len();
        assert_eq!(status(text[..k].as_bytes()) == 0, whole, "{}", k);
    }
    assert_eq!(status(format!("{}# more\n", text).as_bytes()), 3);
    assert_eq!(status(format!("{}\n", text).as_bytes()), 3);
    // Other line ends are no damage.
    assert_eq!(status(text.replace('\n', "\r\n").as_bytes()), 0);
    for (from, to, told_of) in [
        ("# exit", "# ext", "14: '# ext threshold' stands where '# exit ..' should"),
        ("1.0 0:1", "1.5 0:1", "17: the sum isn't that of the lines above it: they were changed since they were written"),
        ("-c 1.0", "-c 2.0", "17: the sum isn't that of the lines above it: they were changed since they were written"),
        ("# release yes\n", "", "15: '# samples 2 8c35e0d64b12e4b4ecea20910a3367bd867b78620dfb6d9d1a0cfbb8db52b1d7' stands where '# release ..' should"),
        ("total_sv 2", "total_sv 3", "8: the numbers of nr_sv don't add up to total_sv, 3"),
        ("-1.0 0:2\n", "", "9: the model ends after 1 of 2 lines below SV"),
    ] {
        let model = file(&f, "other", text.replace(from, to).as_bytes());
        let trouble = told("sort MODEL FILE", &path, &model).unwrap_err();
        assert_eq!(trouble.to_string(), format!("{}:{}", model, told_of));
    }
    let cut = file(
        &f,
        "other",
        text[..text.find("# samples").unwrap()].as_bytes(),
    );
    let trouble = told("sort MODEL FILE", &path, &cut).unwrap_err();
    let told_of = "15: the record ends before its line '# samples'";
    assert_eq!(trouble.to_string(), format!("{}:{}", cut, told_of));
}

/// With a record and without one a model sorts alike.
#[test]
fn the_record_has_no_say_in_what_is_sorted() {
    let f = folder("record-sort");
    let (path, model) = (file(&f, "a", PANEL.as_bytes()), file(&f, "model", b"old"));
    told("train -q FILE MODEL", &path, &model).unwrap();
    let old = file(
        &f,
        "old",
        bare(&fs::read_to_string(&model).unwrap()).as_bytes(),
    );
    let note = format!("note: {} has no record: nothing says what it was trained on, or whether it is to be released\n", old);
    for line in ["sort --votes MODEL FILE", "decide MODEL FILE"] {
        let (out, err) = both(line, &path, &model).unwrap();
        assert_eq!(both(line, &path, &old).unwrap(), (out, note.clone() + &err));
        let quiet = line.replace(" MODEL", " -q MODEL");
        assert_eq!(both(&quiet, &path, &old).unwrap().1, "");
    }
}

/// What docs/MODEL.md shows is what is written, but for the version and the sum, and it names every field.
#[test]
fn the_page_shows_what_is_written() {
    let page = include_str!("../../../docs/MODEL.md");
    let f = folder("record-page");
    let help = told("--help", "", "").unwrap();
    let small = "1 0:1 1:1 2:0\n2 0:2 1:0 2:1\n";
    assert!(help.contains(&small.replace('\n', "\n  ").trim_end().to_string()));
    let (path, model) = (file(&f, "a", small.as_bytes()), file(&f, "model", b"old"));
    told("train -q FILE MODEL", &path, &model).unwrap();
    let text = fs::read_to_string(&model).unwrap();
    let shown = |line: &str| match line.split(' ').nth(1) {
        Some("altuliscia") => "    # altuliscia VERSION\n".to_string(),
        Some("sum") => "    # sum SUM\n".to_string(),
        _ => format!("    {}\n", line),
    };
    let block: String = text.lines().map(shown).collect();
    assert!(page.contains(&block), "{}", block);
    for line in record(&model) {
        let name = line.split(' ').nth(1).unwrap();
        assert!(page.contains(&format!("\n| {} | ", name)), "{}", name);
    }
    let csv = told("weights --csv FILE", &path, "").unwrap();
    let head = csv.lines().next().unwrap();
    assert!(page.contains(&format!("\n    {}\n", head)), "{}", head);
    let json = told("weights --json FILE", &path, "").unwrap();
    let names = json.lines().filter_map(|line| line.strip_prefix("  \""));
    let names: Vec<&str> = names.map(|line| line.split('"').next().unwrap()).collect();
    assert_eq!(names.len(), 11);
    for name in names {
        assert!(page.contains(&format!("`{}`", name)), "{}", name);
    }
    let decided = told("decide --csv MODEL FILE", &path, &model).unwrap();
    let own = decided.split(",\"").next().unwrap();
    assert!(page.contains(&format!("`{}`", own)), "{}", own);
}
