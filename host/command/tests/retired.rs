//! Trainings with retired samples.
mod bare;
mod common;
mod whole;

use bare::bare;
use captions::Figures;
use command::{run, Trouble};
use common::{file, folder, own, said, told, SMALL};
use std::fs;
use std::path::PathBuf;
use whole::whole;

/// Two samples of each class.
const FOUR: &str =
    "7 0:1 1:1 2:0 3:0 4:0\n3 0:2 1:0 2:1 3:0 4:0\n7 0:3 1:0 2:0 3:1 4:0\n3 0:4 1:0 2:0 3:0 4:1\n";

fn figures() -> Figures {
    Figures::read(include_str!("../../../captions/cs-sk.txt")).unwrap()
}

/// A text without the lines of these serial numbers. The others keep theirs.
fn without(text: &str, serials: &[usize]) -> String {
    let gone = |line: &str| serials.iter().any(|s| line.contains(&format!(" 0:{} ", s)));
    let rest = text.lines().filter(|line| !gone(line));
    rest.map(|line| format!("{}\n", line)).collect()
}

/// What a training tells, and its model without the record.
fn trained(f: &PathBuf, path: &str, options: &[&str]) -> (String, String) {
    let model = f.join("model").to_str().unwrap().to_string();
    let words = [&["train", "-c", "10", "--part", path, &model], options].concat();
    let (out, _) = said(&words).unwrap();
    let model = fs::read_to_string(model).unwrap();
    (out, bare(&model).to_string())
}

#[test]
fn a_model_is_that_of_the_file_without_the_retired_lines() {
    let f = folder("retired-model");
    let text = figures().libsvm_train(64);
    let labels: Vec<u8> = figures().labels(64).iter().map(|y| u8::from(*y)).collect();
    let path = file(&f, "all", text.as_bytes());
    let bytes = file(&f, "bytes", &own(64, &figures().matrix(64), &labels));
    for (list, serials) in [
        ("20", &[20][..]),
        ("64", &[64]),
        ("31,20", &[20, 31]),
        ("2,3,4,60,20", &[2, 3, 4, 20, 60]),
    ] {
        let rest = file(&f, "rest", without(&text, serials).as_bytes());
        assert_eq!(
            fs::read_to_string(&rest).unwrap().lines().count(),
            64 - serials.len()
        );
        let (summary, model) = trained(&f, &rest, &[]);
        let (found, retired) = trained(&f, &path, &["--retired", list]);
        assert_eq!(retired, model);
        let named: Vec<String> = serials.iter().map(usize::to_string).collect();
        let count = format!(
            "retired: {} ({} of 64 samples)\noptions",
            named.join(","),
            serials.len()
        );
        assert_eq!(found, summary.replace("options", &count));
        assert!(found.contains("\nnu = 0.") && found.ends_with(": threshold\n"));
        assert_eq!(trained(&f, &bytes, &["--retired", list]), (found, retired));
    }
}

/// What a class is called hangs on the whole file, so that no weight changes its sign where the first sample is withdrawn.
#[test]
fn the_first_class_stays_the_first() {
    let f = folder("retired-first");
    let text = figures().libsvm_train(64);
    let path = file(&f, "all", text.as_bytes());
    let rest = file(&f, "rest", without(&text, &[1]).as_bytes());
    let label = |model: String| model.lines().nth(5).unwrap().to_string();
    assert_eq!(label(trained(&f, &path, &[]).1), "label 1 0");
    assert_eq!(
        label(trained(&f, &path, &["--retired", "1"]).1),
        "label 1 0"
    );
    assert_eq!(label(trained(&f, &rest, &[]).1), "label 0 1");
}

#[test]
fn every_sample_is_listed_under_its_own_number() {
    let f = folder("retired-weights");
    let text = figures().libsvm_train(64);
    let path = file(&f, "all", text.as_bytes());
    let rest = file(&f, "rest", without(&text, &[20, 31]).as_bytes());
    let rows = |words: &[&str]| -> Vec<Vec<String>> {
        let (list, _) = said(words).unwrap();
        let rows = list.lines().skip(1);
        rows.map(|row| row.split_whitespace().map(str::to_string).collect())
            .collect()
    };
    let all = rows(&["weights", "-c", "10", &path]);
    let found = rows(&["weights", "-c", "10", "--retired", "20,31", &path]);
    let alone = rows(&["weights", "-c", "10", "--part", &rest]);
    assert_eq!((all.len(), found.len(), alone.len()), (64, 64, 62));
    for (k, row) in found.iter().enumerate() {
        assert_eq!(row[..3], all[k][..3]);
        let serial = &row[1];
        match alone.iter().find(|other| other[1] == *serial) {
            Some(other) => assert_eq!(row[3..], other[3..]),
            None => assert_eq!(row[3..], ["0.0", "retired"]),
        }
    }
    let (list, err) = said(&["weights", "-c", "10", "--retired", "20", &path]).unwrap();
    let line = "    19     20      0  0.0                       retired";
    assert_eq!(list.lines().nth(20), Some(line));
    assert!(
        err.contains("\nretired: 20 (1 of 64 samples)\noptions: "),
        "{}",
        err
    );
    let quiet = ["weights", "-q", "-c", "10", "--retired", "20", &path];
    assert_eq!(said(&quiet).unwrap(), (list, String::new()));
}

/// What is given for a retired sample may be anything that isn't refused.
#[test]
fn what_stands_in_a_retired_line_has_no_say() {
    let f = folder("retired-say");
    let one = "1 0:1 1:2 2:0 3:1\n2 0:2 1:0 2:2 3:1\n2 0:3 1:1 2:1 3:1\n";
    let other = "1 0:1 1:2 2:0 3:-9e99\n2 0:2 1:0 2:2 3:1e300\n1 0:3 1:7 2:-8 3:-1e300\n";
    let models = [one, other].map(|text| {
        let path = file(&f, "file", text.as_bytes());
        trained(&f, &path, &["--retired", "3"])
    });
    assert_eq!(models[0], models[1]);
    let bad = file(
        &f,
        "file",
        one.replace("3:1\n2 0:3", "3:nan\n2 0:3").as_bytes(),
    );
    let trouble = told("weights --retired 3 FILE", &bad, "").unwrap_err();
    assert_eq!(trouble.status(), 13);
}

#[test]
fn a_class_that_is_gone_is_told() {
    let f = folder("retired-class");
    let text = format!("{}7 0:3 1:0 2:0 3:1\n", SMALL.replace('\n', " 3:0\n"));
    let path = file(&f, "small.txt", text.as_bytes());
    let bytes = file(&f, "bytes", &own(3, &[1.0; 9], &[1, 0, 1]));
    let told = |whose: &str| {
        format!(
            "--retired: every sample{} is retired, so there are no two classes to part (see altuliscia --help)",
            whose
        )
    };
    for (list, whose) in [("1,3", " of label 7"), ("2", " of label 3"), ("2,1,3", "")] {
        assert_eq!(refused(&f, &path, list), (2, told(whose)));
    }
    assert_eq!(refused(&f, &bytes, "3,1"), (2, told(" of label 1")));
    let list = file(&f, "list", b"2\n");
    let (status, text) = refused(&f, &path, &list);
    assert_eq!(status, 3);
    assert!(text.starts_with(&format!("{}: every sample of label 3 is", list)));
    assert!(trained(&f, &path, &["--retired", "3"])
        .0
        .contains("\nretired: 3 (1 of 3 samples)\n"));
}

#[test]
fn a_list_may_stand_in_a_file() {
    let f = folder("retired-file");
    let path = file(&f, "all", figures().libsvm_train(64).as_bytes());
    let expected = trained(&f, &path, &["--retired", "3,20,31"]);
    for text in [
        "3 20 31",
        "3,20,31\n",
        "# withdrawn in June\n20, 31 # both of one msgid\n\n  3,\n",
        "\u{feff}31\r\n20\r\n3\r\n#\u{e9}\r\n",
        "020\t3 , 31,",
    ] {
        let list = file(&f, "list", text.as_bytes());
        assert_eq!(trained(&f, &path, &["--retired", &list]), expected);
    }
    assert_eq!(trained(&f, &path, &["--retired", " 3, 20 31 "]), expected);
    let all = trained(&f, &path, &[]);
    for text in ["", "# nothing yet: 1\n\n"] {
        let list = file(&f, "list", text.as_bytes());
        assert_eq!(trained(&f, &path, &["--retired", &list]), all);
    }
}

/// The status and the text of a training that isn't done, whose model stays as it was.
fn refused(f: &PathBuf, path: &str, list: &str) -> (u8, String) {
    let model = file(f, "model", b"old");
    let count = fs::read_dir(f).unwrap().count();
    let trouble = said(&["train", "--retired", list, path, &model]).unwrap_err();
    assert_eq!(fs::read(&model).unwrap(), b"old");
    assert_eq!(fs::read_dir(f).unwrap().count(), count);
    let weights = said(&["weights", "--retired", list, path]).unwrap_err();
    assert_eq!(weights, trouble);
    (trouble.status(), trouble.to_string())
}

#[test]
fn a_wrong_list_is_told_and_nothing_is_trained() {
    let f = folder("retired-words");
    let path = file(&f, "small.txt", SMALL.as_bytes());
    let none = |serial: &str| format!("no sample of {} has the serial number {}", path, serial);
    let comma = "a comma has no serial number before it".to_string();
    for (list, told) in [
        ("3", none("3")),
        ("1,0", none("0")),
        ("1,99999999999999999999", none("99999999999999999999")),
        ("2,1,2", "the serial number 2 is named twice".to_string()),
        ("2,02", "the serial number 02 is named twice".to_string()),
        ("1,,2", comma.clone()),
        (",", comma.clone()),
        (",1", comma),
        ("", "no serial number is named".to_string()),
        (" ", "no serial number is named".to_string()),
    ] {
        let text = format!("--retired: {} (see altuliscia --help)", told);
        assert_eq!(refused(&f, &path, list), (2, text));
    }
    for list in ["x", "1,x", "-1", "1.0", f.to_str().unwrap()] {
        let (status, text) = refused(&f, &path, list);
        let start = format!(
            "--retired: '{}' is no list of serial numbers and no file that can be read: ",
            list
        );
        assert_eq!(status, 3);
        assert!(text.starts_with(&start), "{}", text);
    }
}

#[test]
fn a_wrong_list_in_a_file_is_told_with_its_line() {
    let f = folder("retired-lines");
    let path = file(&f, "small.txt", SMALL.as_bytes());
    let none = format!(":2: no sample of {} has the serial number 3", path);
    for (data, told) in [
        (&b"1\n3"[..], none.as_str()),
        (
            b"1\n#\n2,1",
            ":3: the serial number 1 is named twice, before in line 1",
        ),
        (
            b"1\n  two",
            ":2: 'two' is not a serial number, which is a whole number",
        ),
        (
            b"-1",
            ":1: '-1' is not a serial number, which is a whole number",
        ),
        (
            b"1.0 2",
            ":1: '1.0' is not a serial number, which is a whole number",
        ),
        (b"1\n,2", ":2: a comma has no serial number before it"),
        (b"1,,2", ":1: a comma has no serial number before it"),
        (b"1\n\xff", ":2: not a text in UTF-8"),
    ] {
        let list = file(&f, "list", data);
        let text = format!("{}{}", list, told);
        assert_eq!(refused(&f, &path, &list), (3, text));
    }
}

/// It is a fault of the file, whether it is named or not.
#[test]
fn a_serial_number_of_two_samples_names_none() {
    let f = folder("retired-several");
    let text = FOUR.replace("0:3", "0:1");
    let path = file(&f, "a", text.as_bytes());
    let told = format!("{}:3: the serial number 1 is that of line 1, too", path);
    assert_eq!(refused(&f, &path, "2,1"), (3, told.clone()));
    assert_eq!(refused(&f, &path, "2"), (3, told.clone()));
    let (status, out, _) = whole(&["check", "--retired", "1", &path]);
    let several = format!(
        "--retired: the serial number 1 is that of several samples: {}:1, {}:3 (see altuliscia --help)",
        path, path
    );
    let count = format!("{}: 4 samples, 2 faults\n", path);
    assert_eq!((status, out), (3, [told, several, count].join("\n")));
}

#[test]
fn a_check_names_what_is_wrong_with_the_list() {
    let f = folder("retired-check");
    let path = file(&f, "small.txt", FOUR.as_bytes());
    let checked = |words: &[&str]| -> (String, Result<(), Trouble>) {
        let words = [&["check", &path], words].concat();
        let words: Vec<String> = words.iter().map(|word| word.to_string()).collect();
        let mut out = Vec::new();
        let done = run(&words, &mut out, &mut Vec::new(), false);
        (String::from_utf8(out).unwrap(), done)
    };
    let fine = format!("{}: 4 samples, 1 of them retired, no fault\n", path);
    assert_eq!(checked(&["--retired", "2"]), (fine, Ok(())));
    let list = file(&f, "list", b"2 x\n9, 2\n");
    let wrong = format!(
        "{0}:1: 'x' is not a serial number, which is a whole number
{0}:2: no sample of {1} has the serial number 9
{0}:2: the serial number 2 is named twice, before in line 1
",
        list, path
    );
    let count = |many: &str| format!("{}: 4 samples, 1 of them retired, {} faults\n", path, many);
    let (told, done) = checked(&["--retired", &list]);
    assert_eq!(told, wrong.clone() + &count("3"));
    assert_eq!(done, Err(Trouble::Faults(3)));
    let shrinking = "-h 1 beside --retired: leave -h 1 out (refusal 13)\n";
    let budget = "--budget must be 1 to 10000000: it is 0 (refusal 10)\n";
    let (told, done) = checked(&["--retired", &list, "-h", "1", "--budget", "0"]);
    assert_eq!(told, [budget, &wrong, shrinking, &count("5")].concat());
    assert_eq!(done, Err(Trouble::Faults(20)));
    let (_, done) = checked(&["--retired", "1", "-h", "1"]);
    assert_eq!(done, Err(Trouble::Faults(23)));
    let (_, done) = checked(&["--retired", "no-such-file"]);
    assert_eq!(done.unwrap_err().status(), 3);
}

#[test]
fn with_shrinking_on_it_is_refusal_13() {
    let f = folder("retired-shrinking");
    let (path, model) = (
        file(&f, "small.txt", FOUR.as_bytes()),
        file(&f, "model", b"old"),
    );
    for line in [
        "train -h 1 --retired 1 FILE MODEL",
        "weights --retired 1 -h 1 FILE",
    ] {
        let trouble = told(line, &path, &model).unwrap_err();
        assert_eq!(trouble.status(), 23);
        let told = "-h 1 beside --retired: leave -h 1 out (refusal 13)";
        assert_eq!(trouble.to_string(), told);
    }
    assert_eq!(fs::read(&model).unwrap(), b"old");
}

#[test]
fn a_list_is_never_replaced_by_a_model() {
    let f = folder("retired-itself");
    let path = file(&f, "small.txt", SMALL.as_bytes());
    let list = file(&f, "list", b"1\n");
    let trouble = said(&["train", "--retired", &list, &path, &list]).unwrap_err();
    assert_eq!(trouble.status(), 2);
    let text = format!(
        "'{}' is the list of retired samples: the model would replace it",
        list
    );
    assert!(trouble.to_string().starts_with(&text), "{}", trouble);
    assert_eq!(fs::read(&list).unwrap(), b"1\n");
}

#[test]
fn help_tells_of_it() {
    for line in ["train --help", "weights --help", "check --help"] {
        let help = told(line, "", "").unwrap();
        assert!(help.contains("\n  --retired LIST\n"), "{}", line);
        assert!(help.contains("(11 to 24)"), "{}", line);
    }
    let help = told("--help", "", "").unwrap();
    assert!(help.contains("`altuliscia train --retired 20,31 packs.txt`"));
    let help = told("weights --help", "", "").unwrap();
    assert!(help.contains("`retired` where the sample is retired"));
}

/// What docs/RETIRED.md shows is what is told.
#[test]
fn the_page_shows_what_is_told() {
    let page = include_str!("../../../docs/RETIRED.md");
    let f = folder("retired-page");
    let path = file(&f, "all", figures().libsvm_train(64).as_bytes());
    let words = [
        "weights",
        "-c",
        "10",
        "-e",
        "1e-7",
        "--retired",
        "20",
        &path,
    ];
    let (list, _) = said(&words).unwrap();
    let rows: Vec<String> = list
        .lines()
        .filter(|l| matches!(l.split_whitespace().nth(1), Some("19" | "20" | "21")))
        .map(|l| format!("    {}", l))
        .collect();
    assert!(rows.len() == 3 && rows[1].ends_with("retired"));
    assert!(page.contains(&rows.join("\n")), "{:?}", rows);
    let printed = include_str!("../../../captions/cs-sk.retired.expected");
    let table: Vec<String> = printed
        .lines()
        .skip_while(|l| !l.contains("support vectors"))
        .take_while(|l| !l.is_empty())
        .map(|l| format!("    {}", l))
        .collect();
    assert!(table.len() == 3);
    assert!(page.contains(&table.join("\n")), "{:?}", table);
    let right = table[2].split_whitespace().nth(3).unwrap();
    let row = format!("| Altuliscia, retired | {} |", right);
    assert!(
        include_str!("../../../docs/COMPARED.md").contains(&row),
        "{}",
        row
    );
}
