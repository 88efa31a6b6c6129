//! Ceilings that travel with their samples.
mod common;
mod whole;

use common::{both, file, folder, own, said, told, SMALL};
use std::fs;
use whole::whole;

/// Four samples of which shrinking moves two; the last one's ceiling is 1, the others' 2.
const MOVED: &str = "-1 0:1 1:11 2:0 3:-3 4:-1\n-1 0:2 1:0 2:11 3:1 4:7\n-1 0:3 1:-3 2:1 3:2 4:1\n+1 0:4 1:-1 2:7 3:1 4:6\n";
const COSTS: &str = "-c 1 -w-1 2";

/// Three labels; shrinking moves two samples of the first pair, whose ceilings differ.
const SEVERAL: &str = "7 0:1 1:1 2:3 3:0 4:1 5:0\n7 0:2 1:3 2:4 3:-3 4:-1 5:0\n3 0:3 1:0 2:-3 3:4 4:-1 5:0\n3 0:4 1:1 2:-1 3:-1 4:3 5:0\n9 0:5 1:0 2:0 3:0 4:0 5:1\n";

/// The last sample's weight, and what is said beside it.
fn last(list: &str) -> Vec<&str> {
    let line = list.lines().last().unwrap();
    line.split_whitespace().skip(3).collect()
}

#[test]
fn a_sample_keeps_its_ceiling() {
    let f = folder("travelling-weights");
    let path = file(&f, "moved", MOVED.as_bytes());
    let list = |options: &str| {
        let line = format!("weights {} -h 1 {} FILE", COSTS, options);
        both(&line, &path, "").unwrap()
    };
    let (usual, beside) = list("");
    assert_eq!(last(&usual), ["1.146617692072237", "above"]);
    assert!(usual.contains("ceiling  linfa-svm says\n") && !beside.contains("travelling"));
    let (kept, beside) = list("--travelling");
    assert_eq!(last(&kept), ["1.0", "at"]);
    assert!(kept.contains("ceiling  linfa-svm would say\n"));
    assert!(!kept.contains("above"));
    let lines = "\ntravelling: each sample keeps its own ceiling\noptions: -s 0 -c 1.0 -w-1 2.0 -e 0.001 -h 1 --budget 10000000 --floor 1e-10 --travelling\n";
    assert!(beside.contains(lines), "{}", beside);
    assert!(!beside.contains("has no say"));
    assert!(!list("-q --travelling").1.contains("travelling"));
    // The same in the library's own bytes.
    let matrix = [11, 0, -3, -1, 0, 11, 1, 7, -3, 1, 2, 1, -1, 7, 1, 6].map(f64::from);
    let path = file(&f, "bytes", &own(4, &matrix, &[0, 0, 0, 1]));
    let line = "weights -c 1 -w0 2 -h 1 --travelling FILE";
    assert_eq!(last(&told(line, &path, "").unwrap()), ["1.0", "at"]);
}

#[test]
fn a_model_records_it() {
    let f = folder("travelling-model");
    let (path, model) = (file(&f, "moved", MOVED.as_bytes()), file(&f, "model", b""));
    let train = |options: &str| told(&format!("train {} FILE MODEL", options), &path, &model);
    let summary = train(&format!("-h 1 --travelling {}", COSTS)).unwrap();
    let options = "-s 0 -c 1.0 -w-1 2.0 -e 0.001 -h 1 --budget 10000000 --floor 1e-10 --travelling";
    let line = format!("options: {}\n", options);
    assert!(summary.contains(&line) && summary.contains("\ntravelling: "));
    let text = fs::read_to_string(&model).unwrap();
    assert!(text.contains(&format!("\n# options {}\n", options)));
    assert!(told("show MODEL", "", &model).unwrap().contains(&line));
    // Trained again with what it records it is the same model.
    train(options).unwrap();
    assert_eq!(fs::read_to_string(&model).unwrap(), text);
    train(options.trim_end_matches(" --travelling")).unwrap();
    assert_ne!(fs::read_to_string(&model).unwrap(), text);
    assert!(!told("show MODEL", "", &model).unwrap().contains("travel"));
}

#[test]
fn where_it_has_no_say_a_note_tells_so() {
    let f = folder("travelling-note");
    let path = file(&f, "moved", MOVED.as_bytes());
    let several = file(&f, "several", SEVERAL.as_bytes());
    let still = "note: --travelling has no say here: with -h 0 no sample moves\n";
    let same = "note: --travelling has no say here: all ceilings are the same\n";
    for (options, path, note) in [
        (COSTS, &path, Some(still)),
        ("-c 2", &path, Some(still)),
        ("-c 2 -h 1", &path, Some(same)),
        ("-c 2 -w-1 1 -h 1", &path, Some(same)),
        ("-c 1 -w-1 2 -h 1", &path, None),
        ("-w3 2", &several, Some(still)),
        ("-h 1", &several, Some(same)),
        ("-w9 2 -h 1", &several, None),
    ] {
        for command in ["train", "check", "train -q"] {
            let model = if command == "check" { "" } else { "/dev/null" };
            let line = format!("{} {} --travelling {} {}", command, options, path, model);
            let words: Vec<&str> = line.split_whitespace().collect();
            let beside = whole(&words).2;
            assert_eq!(
                beside.contains("--travelling has no say"),
                note.is_some(),
                "{}",
                line
            );
            assert!(beside.contains(note.unwrap_or_default()), "{}", beside);
            let without: Vec<&str> = words.into_iter().filter(|w| *w != "--travelling").collect();
            assert!(!whole(&without).2.contains("travelling"));
        }
    }
}

/// Whether the file is there or not; nothing is written.
#[test]
fn where_it_makes_no_sense_the_words_are_refused() {
    let f = folder("travelling-refused");
    let small = file(&f, "small", SMALL.as_bytes());
    let model = file(&f, "model", b"old");
    for (line, why) in [
        ("train -s 1", "only -s 0 has ceilings that may differ"),
        (
            "weights -s 2 -h 1",
            "only -s 0 has ceilings that may differ",
        ),
        (
            "train --retired 1",
            "with --retired shrinking is off, and no sample moves",
        ),
        (
            "check --retired 1 -h 1",
            "with --retired shrinking is off, and no sample moves",
        ),
        (
            "trail --sample 1",
            "a trail is told with -h 0 only, where no sample moves",
        ),
    ] {
        let told = format!(
            "altuliscia: --travelling: {}; leave it out (see altuliscia --help)\n",
            why
        );
        for path in [&small[..], "no-such-file"] {
            let mut words: Vec<&str> = line.split_whitespace().collect();
            words.extend(["--travelling", path]);
            words.extend(line.starts_with("train").then(|| &model[..]));
            assert_eq!(whole(&words), (2, String::new(), told.clone()));
        }
    }
    assert_eq!(fs::read(&model).unwrap(), b"old");
}

/// Each pair of several is trained as it is by itself.
#[test]
fn pairs_of_several_take_it() {
    let f = folder("travelling-several");
    let (path, model) = (
        file(&f, "three", SEVERAL.as_bytes()),
        file(&f, "model", b""),
    );
    let options = "-c 2 -w3 0.5 -h 1";
    let weights = |mode: &str| {
        let line = format!("train -q {} {} FILE MODEL", options, mode);
        told(&line, &path, &model).unwrap();
        let line = format!("weights {} {} --pair 7,3 FILE", options, mode);
        let alone = told(&line, &path, "").unwrap();
        let of_model = said(&["weights", "--pair", "7,3", &model]).unwrap().0;
        (last(&alone)[0].to_string(), of_model)
    };
    let (usual, in_model) = weights("");
    assert_eq!(usual, "-1.1666666666666665");
    assert!(in_model.contains(&usual), "{}", in_model);
    let (own, in_model) = weights("--travelling");
    assert_eq!(own, "-1.0");
    assert!(!in_model.contains(&usual));
    let text = fs::read_to_string(&model).unwrap();
    assert!(text.contains(" --floor 1e-10 --travelling\n"));
}

#[test]
fn help_tells_of_it() {
    for command in ["train", "weights", "check", "trail"] {
        let help = told(&format!("{} --help", command), "", "").unwrap();
        let start = "\n  --travelling\n              a sample keeps its own ceiling";
        assert!(help.contains(start), "{}", command);
    }
    assert!(!told("sort --help", "", "")
        .unwrap()
        .contains("--travelling"));
}
