//! Trainings of more than two languages: every pair by itself.
mod bare;
mod common;
mod whole;

use bare::bare;
use command::{run, Trouble};
use common::{both, file, folder, own, said, told, SMALL};
use std::fs;
use std::path::PathBuf;
use whole::whole;

/// One caption of each of three languages.
const THREE: &str = "7 0:1 1:1 2:0 3:0\n3 0:2 1:0 2:1 3:0\n9 0:3 1:0 2:0 3:1\n";

/// A problem of four languages, drawn from whole numbers. Serial numbers aren't those of the lines, and no language stands together.
fn drawn(n: usize) -> String {
    let mut state = 5_u64;
    let mut below = |limit: u64| {
        state = state
            .wrapping_mul(6364136223846793005)
            .wrapping_add(1442695040888963407);
        (state >> 33) % limit
    };
    let labels = [5, -1, 1, 12];
    let points: Vec<(usize, [f64; 3])> = (0..n)
        .map(|_| {
            let language = below(4) as usize;
            let centre = [[2, 0, 1], [0, 2, 0], [-2, 0, 1], [0, -2, 2]][language];
            (
                language,
                [0, 1, 2].map(|d| f64::from(centre[d] + below(5) as i32 - 2)),
            )
        })
        .collect();
    let serial = |k: usize| (k * 7) % n + 1;
    let line = |k: usize| {
        let (language, p) = &points[k];
        let mut values = vec![0.0; n];
        for (j, (_, q)) in points.iter().enumerate() {
            values[serial(j) - 1] = 1.0 + p[0] * q[0] + p[1] * q[1] + p[2] * q[2];
        }
        let values = values.iter().enumerate();
        let values: String = values.map(|(j, x)| format!(" {}:{}", j + 1, x)).collect();
        format!("{} 0:{}{}\n", labels[*language], serial(k), values)
    };
    assert!(n % 7 != 0);
    (0..n).map(line).collect()
}

/// The lines of some labels.
fn only(text: &str, labels: &[i32]) -> String {
    let keeps = |line: &&str| labels.contains(&line.split(' ').next().unwrap().parse().unwrap());
    text.lines()
        .filter(keeps)
        .map(|l| format!("{}\n", l))
        .collect()
}

/// A model's labels, its rhos, and its lines: label, serial, coefficients.
type Model = (Vec<i32>, Vec<String>, Vec<(i32, u64, Vec<String>)>);

fn parsed(model: &str) -> Model {
    let words = |name: &str| -> Vec<String> {
        let line = model.lines().find_map(|l| l.strip_prefix(name)).unwrap();
        line.split_whitespace().map(str::to_string).collect()
    };
    let labels: Vec<i32> = words("label ").iter().map(|w| w.parse().unwrap()).collect();
    let counts = words("nr_sv ")
        .into_iter()
        .map(|w| w.parse::<usize>().unwrap());
    let whose: Vec<i32> = labels
        .iter()
        .zip(counts)
        .flat_map(|(label, count)| std::iter::repeat(*label).take(count))
        .collect();
    let lines = model.lines().skip_while(|l| *l != "SV").skip(1);
    let support: Vec<_> = lines
        .zip(&whose)
        .map(|(line, label)| {
            let (weights, serial) = line.split_once(" 0:").unwrap();
            let weights = weights.split(' ').map(str::to_string).collect();
            (*label, serial.parse().unwrap(), weights)
        })
        .collect();
    assert_eq!(support.len(), whose.len());
    (labels, words("rho "), support)
}

/// The model of a file that may be a part, or spend its budget, without its record.
fn model(f: &PathBuf, path: &str, options: &str) -> String {
    let model = f.join("model").to_str().unwrap().to_string();
    let line = format!("train --part --write-anyway {}", options);
    let words: Vec<&str> = line.split_whitespace().chain([path, &model]).collect();
    let (status, _, err) = whole(&words);
    assert!([0, 6].contains(&status), "{}", err);
    bare(&fs::read_to_string(model).unwrap()).to_string()
}

#[test]
fn a_model_of_three_languages_is_written_and_told() {
    let f = folder("several-train");
    let (path, model) = (file(&f, "a", THREE.as_bytes()), file(&f, "model", b"old"));
    let text = told("train FILE MODEL", &path, &model).unwrap();
    let pair = "optimization finished, #iter = 1\nnu = 1.000000\nobj = -1.000000, rho = 0.000000\nnSV = 2, nBSV = 2\nexit reason: threshold\n\n";
    let expected = format!(
        "pair 1 of 3: 7 3\n{0}pair 2 of 3: 7 9\n{0}pair 3 of 3: 3 9\n{0}Total nSV = 3\noptions: -s 0 -c 1.0 -e 0.001 -h 0 --budget 10000000 --floor 1e-10\nexit reason: threshold, of all 3 pairs\n",
        pair
    );
    assert_eq!(text, expected);
    assert_eq!(
        bare(&fs::read_to_string(&model).unwrap()),
        "svm_type c_svc\nkernel_type precomputed\nnr_class 3\ntotal_sv 3\nrho 0.0 0.0 0.0\nlabel 7 3 9\nnr_sv 1 1 1\nSV\n1.0 1.0 0:1\n-1.0 1.0 0:2\n-1.0 -1.0 0:3\n"
    );
    let (out, err) = both("train -q FILE MODEL", &path, &model).unwrap();
    assert_eq!((out.as_str(), err.as_str()), ("", ""));
    told("train -s 1 -n 0.5 FILE MODEL", &path, &model).unwrap();
    let text = fs::read_to_string(&model).unwrap();
    assert!(text.starts_with("svm_type nu_svc\n"), "{}", text);
}

/// Each pair is trained as a file with the lines of its two languages alone is, whatever the options: the same rho, and every weight.
#[test]
fn each_pair_is_that_of_its_own_lines() {
    let f = folder("several-pairs");
    let text = drawn(90);
    let path = file(&f, "all", text.as_bytes());
    let mut compared = 0;
    for options in [
        "-c 1",
        "-c 10 -e 1e-7",
        "-c 0.5 -w5 3 -w1 0.25",
        "-s 1 -n 0.1",
        "-c 0.01 -h 1",
        "-c 10 --floor 1e-12 --budget 100",
        "--retired 1,8,90,33,44",
    ] {
        let (labels, rhos, support) = parsed(&model(&f, &path, options));
        assert_eq!(labels.len(), 4);
        assert_eq!(rhos.len(), 6);
        let mut rhos = rhos.iter();
        for (i, first) in labels.iter().enumerate() {
            for (j, second) in labels.iter().enumerate().skip(i + 1) {
                let both = [*first, *second];
                let rest = file(&f, "rest", only(&text, &both).as_bytes());
                // What isn't of the two languages is left out of the options.
                let options = narrowed(options, &text, &both);
                let (own, own_rhos, own_support) = parsed(&model(&f, &rest, &options));
                // Of -1 and +1 alone +1 would be the first.
                let turned = own != both;
                assert_eq!(turned, both == [-1, 1]);
                let sign = |word: &str| match word.strip_prefix('-') {
                    Some(rest) => rest.to_string(),
                    None => format!("-{}", word),
                };
                let here = |word: &String| if turned { sign(word) } else { word.clone() };
                assert_eq!(*rhos.next().unwrap(), here(&own_rhos[0]));
                let mut found: Vec<(u64, String)> = support
                    .iter()
                    .filter(|(label, ..)| both.contains(label))
                    .map(|(label, serial, w)| {
                        let column = if label == first { j - 1 } else { i };
                        (*serial, w[column].clone())
                    })
                    .filter(|(_, weight)| weight != "0.0")
                    .collect();
                let mut expected: Vec<(u64, String)> = own_support
                    .iter()
                    .map(|(_, serial, w)| (*serial, here(&w[0])))
                    .collect();
                found.sort();
                expected.sort();
                assert_eq!(found, expected, "{} {:?}", options, both);
                compared += found.len();
            }
        }
    }
    assert!(compared > 500, "{}", compared);
}

/// The options as a file with two labels takes them.
fn narrowed(options: &str, text: &str, labels: &[i32; 2]) -> String {
    let lines = only(text, labels);
    let mut words = options.split(' ').map(str::to_string);
    let mut kept = Vec::new();
    while let Some(option) = words.next() {
        let value = words.next().unwrap();
        let of = option.strip_prefix("-w").map(|l| l.parse::<i32>().unwrap());
        let serials = value
            .split(',')
            .filter(|s| lines.contains(&format!(" 0:{} ", s)));
        let value = match option.as_str() {
            "--retired" => serials.collect::<Vec<_>>().join(","),
            _ => value.clone(),
        };
        if of.map_or(true, |label| labels.contains(&label)) && !value.is_empty() {
            kept.extend([option, value]);
        }
    }
    kept.join(" ")
}

#[test]
fn a_retired_caption_is_passed_over_in_every_pair() {
    let f = folder("several-retired");
    let text = drawn(60);
    let path = file(&f, "all", text.as_bytes());
    let gone = [" 0:4 ", " 0:31 ", " 0:32 "];
    let lines = text.lines().filter(|l| !gone.iter().any(|s| l.contains(s)));
    let rest: String = lines.map(|l| format!("{}\n", l)).collect();
    let rest = file(&f, "rest", rest.as_bytes());
    assert_eq!(
        model(&f, &path, "-c 10 --retired 32,4,31"),
        model(&f, &rest, "-c 10")
    );
    let summary = told("train --retired 4 FILE MODEL", &path, "/dev/null").unwrap();
    let end = "\nretired: 4 (1 of 60 samples)\noptions: ";
    assert!(summary.contains(end), "{}", summary);
    assert!(summary.ends_with("\nexit reason: threshold, of all 6 pairs\n"));
    // A label whose captions are all retired.
    let three = file(&f, "three", THREE.as_bytes());
    let trouble = told("train --retired 2 FILE MODEL", &three, "/dev/null").unwrap_err();
    let told_of = |whose: &str| {
        format!(
            "--retired: every sample{} is retired, so there are no two classes to part (see altuliscia --help)",
            whose
        )
    };
    assert_eq!(
        (trouble.status(), trouble.to_string()),
        (2, told_of(" of label 3"))
    );
    let trouble = told("train --retired 2,1,3 FILE MODEL", &three, "/dev/null").unwrap_err();
    assert_eq!(trouble.to_string(), told_of(""));
    let trouble = told("train -h 1 --retired 4 FILE MODEL", &path, "/dev/null").unwrap_err();
    assert_eq!(trouble.status(), 23);
}

/// What is told of the pair 5 12 of a file that has more.
fn named((out, err): (String, String), quiet: bool) -> (String, String) {
    match quiet {
        true => (out, err),
        false => (out, format!("pair: 5 12\n{}", err)),
    }
}

#[test]
fn a_pair_alone_is_a_file_of_its_lines() {
    let f = folder("several-alone");
    let text = drawn(60);
    let path = file(&f, "all", text.as_bytes());
    let rest = file(&f, "rest", only(&text, &[12, 5]).as_bytes());
    let serial = only(&text, &[12]).split(' ').nth(1).unwrap()[2..].to_string();
    let retired = format!("-q --retired {}", serial);
    for options in ["-c 10", "-c 10 -w12 2", "-s 1 -n 0.1", &retired] {
        let alone = |labels: &str| {
            let line = format!("weights {} --pair {} FILE", options, labels);
            both(&line, &path, "").unwrap()
        };
        let expected = both(&format!("weights --part {} FILE", options), &rest, "").unwrap();
        let expected = named(expected, options.starts_with("-q"));
        assert_eq!(alone("5,12"), expected);
        assert_eq!(alone("12,5"), expected);
        let trained = model(&f, &path, &format!("{} --pair 12,5", options));
        assert_eq!(trained, model(&f, &rest, options));
    }
    // A cost of another label is passed over.
    let with = both("weights --pair 5,12 -w1 9 FILE", &path, "").unwrap();
    let alone = both("weights --part FILE", &rest, "").unwrap();
    assert_eq!(with, named(alone.clone(), false));
    let checked = told("check --pair 5,12 FILE", &path, "").unwrap();
    let count = only(&text, &[12, 5]).lines().count();
    assert_eq!(checked, format!("{}: {} samples, no fault\n", path, count));
    // In a file of two labels it may stand, too.
    let two = both("weights --part --pair 12,5 FILE", &rest, "").unwrap();
    assert_eq!(two, alone);
    let small = file(&f, "small", SMALL.as_bytes());
    let list = told("weights --pair 3,7 FILE", &small, "").unwrap();
    assert_eq!(list, told("weights FILE", &small, "").unwrap());
    let bytes = file(&f, "bytes", &own(2, &[1.0, 0.0, 0.0, 1.0], &[1, 0]));
    assert!(told("weights --pair 0,1 FILE", &bytes, "").is_ok());
    let cut = file(&f, "bytes", &own(2, &[1.0, 0.0, 0.0], &[]));
    assert_eq!(
        told("weights --pair 0,1 FILE", &cut, "")
            .unwrap_err()
            .status(),
        12
    );
    let trouble = told("weights --pair 5,6 FILE", &path, "").unwrap_err();
    let told_of = "--pair: no sample has the label 6 (see altuliscia --help)";
    assert_eq!(
        (trouble.status(), trouble.to_string().as_str()),
        (2, told_of)
    );
}

#[test]
fn one_weight_of_a_pair_is_followed() {
    let f = folder("several-trail");
    let drawn = drawn(60);
    let mut lines: Vec<&str> = drawn.lines().collect();
    lines.sort_by_key(|l| {
        l.split(&[' ', ':'][..])
            .nth(2)
            .unwrap()
            .parse::<u64>()
            .unwrap()
    });
    let text = lines.join("\n") + "\n";
    let path = file(&f, "all", text.as_bytes());
    let rest = file(&f, "rest", only(&text, &[12, 5]).as_bytes());
    let name = |line: &str| format!("caption of {}\n", line.split(' ').nth(1).unwrap());
    let texts = |of: &str| of.lines().map(name).collect::<String>();
    let all = file(&f, "all.captions", texts(&text).as_bytes());
    let few = file(&f, "few.captions", texts(&only(&text, &[12, 5])).as_bytes());
    let serial = only(&text, &[12]).split(' ').nth(1).unwrap()[2..].to_string();
    let words = ["trail", "-c", "10", "--sample", &serial, "--captions"];
    let alone = said(&[&words[..], &[&all, "--pair", "12,5", &path]].concat()).unwrap();
    let expected = said(&[&words[..], &[&few, "--part", &rest]].concat()).unwrap();
    let (out, err) = named(expected, false);
    // It names its pair.
    let out = out.replacen(", label 12, ", ", label 12, in the pair 5 12, ", 1);
    assert_eq!(alone, (out, err));
    assert!(alone.0.contains(&format!("\"caption of 0:{}\"", serial)));
    assert!(alone.0.contains("Checked with "), "{}", alone.0);
    // Where the lines aren't in the order of their serial numbers, the captions may follow either.
    let mixed = file(&f, "mixed", drawn.as_bytes());
    for command in ["trail", "weights"] {
        let words = [&[command], &words[1..], &[&all, "--pair", "12,5", &mixed]].concat();
        let trouble = said(&words).unwrap_err();
        let end = "so the captions may be in the order of its lines or in that of its serial numbers: sort both files by serial number (see altuliscia --help)";
        let told_of = trouble.to_string();
        assert!(
            trouble.status() == 2 && told_of.ends_with(end),
            "{}",
            told_of
        );
        assert!(told_of.starts_with(&format!("--captions: in {} serial ", mixed)));
    }
    let other = only(&text, &[1]).split(' ').nth(1).unwrap()[2..].to_string();
    let words = ["trail", "--pair", "12,5", "--sample", &other, &path];
    let trouble = said(&words).unwrap_err();
    let told_of = format!(
        "--sample: serial {} is in {} but not in the pair 5 12 (see altuliscia --help)",
        other, path
    );
    assert_eq!(
        (trouble.status(), trouble.to_string()),
        (2, told_of.clone())
    );
    let words = ["weights", "--pair", "12,5", "--sample", &other, &path];
    assert_eq!(said(&words).unwrap_err().to_string(), told_of);
    let words = ["trail", "--pair", "12,5", "--sample", "61", &path];
    let told_of = format!("--sample: no sample of {} has the serial number 61", path);
    let trouble = said(&words).unwrap_err().to_string();
    assert!(trouble.starts_with(&told_of), "{}", trouble);
}

#[test]
fn without_a_pair_there_are_no_weights_to_list() {
    let f = folder("several-third");
    let path = file(&f, "a", THREE.as_bytes());
    for (line, name) in [
        ("weights FILE", "weights"),
        ("trail --sample 1 FILE", "trail"),
    ] {
        let trouble = told(line, &path, "").unwrap_err();
        let told_of = format!(
            "{}:3: a third label, 9: `{}` is of two classes, and --pair says of which",
            path, name
        );
        assert_eq!((trouble.status(), trouble.to_string()), (3, told_of));
    }
}

/// n captions of each of these labels, whose kernel is the identity but for these values of the first line.
fn many(labels: &[i32], n: usize) -> String {
    let all = labels.len() * n;
    let line = |k: usize| {
        let values = (0..all).map(|j| format!(" {}:{}", j + 1, u8::from(j == k)));
        let values: String = values.collect();
        format!("{} 0:{}{}\n", labels[k / n], k + 1, values)
    };
    (0..all).map(line).collect()
}

#[test]
fn a_file_may_have_more_samples_than_a_pair() {
    let f = folder("several-many");
    let model = f.join("model").to_str().unwrap().to_string();
    let path = file(&f, "a", many(&[1, 2, 3], 256).as_bytes());
    let text = told("train FILE MODEL", &path, &model).unwrap();
    assert!(text.contains("\nTotal nSV = 768\n"), "{}", text);
    let trained = fs::read_to_string(&model).unwrap();
    assert!(trained.contains("\ntotal_sv 768\n"));
    assert_eq!(
        told("check FILE", &path, "").unwrap(),
        format!("{}: 768 samples of 3 labels, no fault\n", path)
    );
    // One more of each: every pair has 514.
    let path = file(&f, "b", many(&[1, 2, 3], 257).as_bytes());
    let before = fs::read(&model).unwrap();
    let trouble = told("train FILE MODEL", &path, &model).unwrap_err();
    let refused = |pair: &str| {
        format!(
            "{}: 514 samples in the pair {}: 1 to 512 samples are trained (refusal 1)",
            path, pair
        )
    };
    assert_eq!(
        (trouble.status(), trouble.to_string()),
        (11, refused("1 2"))
    );
    assert_eq!(fs::read(&model).unwrap(), before);
    let (text, done) = checked(&[&path]);
    let expected = [
        refused("1 2"),
        refused("1 3"),
        refused("2 3"),
        format!("{}: 771 samples of 3 labels, 3 faults", path),
    ];
    assert_eq!(text.lines().collect::<Vec<_>>(), expected);
    assert_eq!(done, Err(Trouble::Faults(11)));
    // Retired ones are lent, too.
    let trouble = told("train --retired 1 FILE MODEL", &path, "/dev/null").unwrap_err();
    assert_eq!(trouble.status(), 11);
}

/// What a check tells on standard output, and how it ends.
fn checked(words: &[&str]) -> (String, Result<(), Trouble>) {
    let words = ["check"].iter().chain(words).map(|word| word.to_string());
    let mut out = Vec::new();
    let done = run(&words.collect::<Vec<_>>(), &mut out, &mut Vec::new(), false);
    (String::from_utf8(out).unwrap(), done)
}

#[test]
fn a_fault_is_told_once_with_its_first_pair() {
    let f = folder("several-faults");
    let bad = THREE.replace("9 0:3 1:0 2:0 3:1", "9 0:3 1:0 2:inf 3:nan");
    let path = file(&f, "a", bad.as_bytes());
    let (text, done) = checked(&["-w9", "0", "-e", "-1", &path]);
    let starts = [
        format!("{}:3: '3:nan', in the pair 7 9: a kernel value ", path),
        "-c must be above 0 and not above 2^1000, also where -w multiplies it: that of label 9 is 0.0, in the pair 7 9 (refusal 5)".to_string(),
        format!("{}:3: '2:inf', in the pair 3 9: a kernel value ", path),
        "-e must be 0 or above it, and finite: it is -1.0 (refusal 8)".to_string(),
        format!("{}: 3 samples of 3 labels, 4 faults", path),
    ];
    let lines: Vec<&str> = text.lines().collect();
    assert_eq!(lines.len(), starts.len(), "{}", text);
    for (line, start) in lines.iter().zip(&starts) {
        assert!(line.starts_with(start), "{}", line);
    }
    assert_eq!(done, Err(Trouble::Faults(13)));
    let trouble = told("train FILE MODEL", &path, "/dev/null").unwrap_err();
    assert!(trouble.to_string().starts_with(&starts[0]), "{}", trouble);
    let good = file(&f, "b", THREE.as_bytes());
    for (options, status) in [
        ("-c 0", 15),
        ("-e nan", 18),
        ("-s 1 -n 0", 19),
        ("--budget 0", 20),
        ("--floor 2", 24),
    ] {
        let line = format!("train {} FILE MODEL", options);
        let trouble = told(&line, &good, "/dev/null").unwrap_err();
        assert_eq!(trouble.status(), status);
    }
    let wrong = told("train -w8 2 FILE MODEL", &good, "/dev/null").unwrap_err();
    let text = "-w8: no sample has that label (see altuliscia --help)";
    assert_eq!((wrong.status(), wrong.to_string().as_str()), (2, text));
}

#[test]
fn one_label_and_thirteen_are_refused() {
    let f = folder("several-labels");
    let labels: Vec<i32> = (1..=13).collect();
    let path = file(&f, "a", many(&labels, 1).as_bytes());
    for command in ["train FILE MODEL", "check FILE", "weights --pair 1,2 FILE"] {
        let trouble = told(command, &path, "/dev/null").unwrap_err();
        let text = format!(
            "{}:13: a thirteenth label, 13: at most 12 languages are sorted",
            path
        );
        assert_eq!((trouble.status(), trouble.to_string()), (3, text));
    }
    let path = file(&f, "b", many(&labels[..12], 1).as_bytes());
    let text = told("train FILE MODEL", &path, "/dev/null").unwrap();
    assert!(text.contains("\npair 66 of 66: 11 12\n"), "{}", text);
    let path = file(&f, "c", many(&[4], 2).as_bytes());
    let trouble = told("train FILE MODEL", &path, "/dev/null").unwrap_err();
    assert!(trouble
        .to_string()
        .ends_with(":1: every label is 4: two classes are needed (one class is -s 2)"));
    // With -s 2 labels have no say.
    let path = file(&f, "d", many(&labels, 1).as_bytes());
    assert!(told("train -s 2 FILE MODEL", &path, "/dev/null").is_ok());
}

#[test]
fn what_is_not_well_is_told_with_its_pair() {
    let f = folder("several-notes");
    let text = drawn(60);
    let path = file(&f, "all", text.as_bytes());
    let line = "train -c 10 -e 1e-7 --budget 150 FILE MODEL";
    let files = [&path[..], "/dev/null"];
    let words: Vec<&str> = line.split(' ').take(7).chain(files).collect();
    let (status, summary, err) = whole(&words);
    assert_eq!(status, 6);
    let spent: Vec<&str> = summary
        .split("\n\n")
        .filter(|part| part.ends_with("\nexit reason: iterations (all 150 of the budget)"))
        .map(|part| part.lines().next().unwrap().trim_start())
        .collect();
    assert!(spent.len() > 1 && spent.len() < 6, "{:?}", spent);
    let labels: Vec<&str> = spent
        .iter()
        .map(|name| &name["pair 1 of 6: ".len()..])
        .collect();
    let end = format!(
        "\nexit reason: iterations (all 150 of the budget), of {} of 6 pairs: {}\n",
        spent.len(),
        labels.join(", ")
    );
    assert!(summary.ends_with(&end), "{}", summary);
    // Each of them is named.
    let named = |labels: &&str| format!("pair {}: the budget ran out, all 150 of it", labels);
    let named: Vec<String> = labels.iter().map(named).collect();
    let expected = format!(
        "altuliscia: not to be released: {}; no model was written (--write-anyway writes it)\n",
        named.join("; ")
    );
    assert_eq!(err, expected);
    let quiet = whole(&[&["train", "-q"], &words[1..]].concat());
    assert_eq!(quiet, (6, String::new(), err));
    // A rho that isn't finite: of the first pair, in which every kernel value is 0.
    let zeros = "1 0:1 1:0 2:0 3:0 4:0\n2 0:2 1:0 2:0 3:0 4:0\n3 0:3 1:0 2:0 3:1 4:0\n3 0:4 1:0 2:0 3:0 4:1\n";
    let zeros = file(&f, "zeros", zeros.as_bytes());
    let (status, _, err) = whole(&["train", "-q", "-s1", "-n.5", &zeros, "/dev/null"]);
    let reason = "not to be released: pair 1 2: r, by which the weights are divided, is 0.0; ";
    assert!(status == 6 && err.contains(reason), "{}", err);
    // The note on shrinking stands once.
    let (_, err) = both("train -c 0.01 -h 1 FILE MODEL", &path, "/dev/null").unwrap();
    assert_eq!(err.matches("note: shrinking is on: ").count(), 1);
    let (_, err) = both("train -q -c 0.01 -h 1 FILE MODEL", &path, "/dev/null").unwrap();
    assert_eq!(err.matches("note: shrinking is on: ").count(), 1);
    let summary = told("train --floor 1e-12 FILE MODEL", &path, "/dev/null").unwrap();
    assert_eq!(summary.matches("\nfloor = 1e-12\noptions: ").count(), 1);
}

#[test]
fn a_weight_below_0_is_told_with_its_pair() {
    let f = folder("several-below");
    let text = "-1 0:1 1:10 2:-6 3:-4 4:7 5:0\n-1 0:2 1:-6 2:10 3:-4 4:-5 5:0\n-1 0:3 1:-4 2:-4 3:8 4:-2 5:0\n1 0:4 1:7 2:-5 3:-2 4:5 5:0\n5 0:5 1:0 2:0 3:0 4:0 5:1\n";
    let (path, model) = (file(&f, "a", text.as_bytes()), file(&f, "model", b"old"));
    let line = "train -q -h 1 -w1 10 FILE MODEL";
    let (_, err) = both(line, &path, &model).unwrap();
    let note = "note: a weight is below 0: that of serial 2, in the pair -1 1\n";
    assert!(err.ends_with(note), "{}", err);
    let csv = told("weights --csv FILE", &model, "").unwrap();
    let marked: Vec<&str> = csv.lines().filter(|l| l.contains("below 0")).collect();
    assert!(
        marked.len() == 1 && marked[0].starts_with(",2,-1,1,-0.27"),
        "{}",
        csv
    );
}

/// A weight that is listed and not counted, in one pair and in all.
#[test]
fn what_is_listed_and_not_counted_is_told() {
    let f = folder("several-faint");
    let (path, model) = (file(&f, "a", THREE.as_bytes()), file(&f, "model", b"old"));
    let words = ["train", "-c1e-14", "--write-anyway", &path, &model];
    let (status, text, err) = whole(&words);
    assert_eq!(status, 6);
    assert_eq!(err.matches(": there is no support vector").count(), 3);
    let end =
        "\nTotal nSV = 0\nsamples in the model: 3 (3 of them not counted as support)\noptions: ";
    assert!(text.contains(end), "{}", text);
    assert_eq!(
        text.matches("\nweights in the model: 2 (2 of them at most")
            .count(),
        3
    );
    assert!(fs::read_to_string(&model)
        .unwrap()
        .contains("\n1e-14 1e-14 0:1\n"));
}

/// A refusal that comes in the run has its pair.
#[test]
fn a_pair_that_is_refused_in_its_run_is_named() {
    let f = folder("several-shrunk");
    let figures = captions::Figures::read(include_str!("../../../captions/da-sv.txt")).unwrap();
    let pairs: String = figures
        .libsvm_train(64)
        .lines()
        .map(|l| format!("{} 65:0\n", l))
        .collect();
    let zeros: String = (1..=64).map(|j| format!(" {}:0", j)).collect();
    let text = format!("{}5 0:65{} 65:1\n", pairs, zeros);
    let (path, model) = (file(&f, "a", text.as_bytes()), file(&f, "model", b"old"));
    let trouble = told("train -h 1 -e 1e-7 FILE MODEL", &path, &model).unwrap_err();
    let told_of = format!("{}: pair 1 of 3: 1 0: shrinking would have taken more samples out than were active: train with -h 0 (refusal 11)", path);
    assert_eq!((trouble.status(), trouble.to_string()), (21, told_of));
    assert_eq!(fs::read(&model).unwrap(), b"old");
}

#[test]
fn help_tells_of_it() {
    let help = told("train --help", "", "").unwrap();
    assert!(help.contains("\nFILE may have 2 to 12 labels, for as many languages."));
    assert!(help.contains("A pair has at most 512 samples, retired ones too;"));
    for command in ["train", "weights", "check", "trail"] {
        let help = told(&format!("{} --help", command), "", "").unwrap();
        assert!(help.contains("\n  --pair A,B  of a FILE with more than two labels"));
    }
}
